#!/usr/bin/env python3
"""Spells the repository's own definitions, fields and lemmas as today's Rattle does, in the crates below the current folder.

Run once, after /opt/rattle/port/port.py, at the top of the repository. Types and facts are in upper camel case, all else is in snake
case; a dash stays in a lemma's name where it joins the names of two functions, as in `length-xor`. It turns specs/ and proofs/ whole, and
in src/ the clauses and the `ghost` lines; in a comment, names that its file's code has. What Rattle makes
(goals, steps) and what is imported from the kit stays.
With --list it writes nothing and prints each name's old and new spelling.
"""

import glob
import re
import sys

WORD = re.compile(r'[^\s(){}.;,@"«»]+')
# Names that today's library spells otherwise, and names that would fall together with another.
OTHERWISE = {
    "No-block": "NoBlockHas",
    "getD": "slice_index",
    "Short-buffer": "StageShort",
    "check-bits": "check_bits_of",
}
# The library's functions on lists and numbers, by which a lemma may be named.
LIBRARY = set("length take drop map append slice_index replicate fold cond filter sum".split())
OURS = set(line.split(":")[0].strip() for line in open("crates.txt") if ":" in line)
COMMENT = re.compile(r"(?<![^\s(){}.;,@])--[^\n]*|//[^\n]*")
DECLARED = re.compile(r"^\s*((?:(?:abbrev|unfoldable|pub|record|data)\s+)*)([A-Za-z][^\s:(){}]*)\s*(?:\([^()]*\)\s*|\{[^{}]*\}\s*)*:\s", re.M)
USE = re.compile(r"^(?:ghost )?use ([^\s{;]+)(?:\{([^}]*)\})?( as [^\s;]+)?", re.M)


def antt_files():
    return sorted(glob.glob("crates/*/specs/*.antt") + glob.glob("crates/*/proofs/**/*.antt", recursive=True))


def is_ours(path):
    steps = path.split(".")
    return steps[0] == "Rattle" and steps[1] in OURS


def imported(text):
    """The names that a file has from the kit."""
    names = set()
    for path, items, _ in USE.findall(text):
        if not is_ours(path):
            for item in items.split(","):
                names.update(item.split(" as ")[0].split())
    return names


def made(text):
    """The names of goals in a file of answers or invariants, and of branches that it imports."""
    names = set(re.findall(r"\bgoal\.([^\s(){}.;,]+)", text))
    for path, items, _ in USE.findall(text):
        if path.rstrip(".").endswith((".Goals", ".Given")):
            names.update(i.strip() for i in items.split(","))
    return names


def plain(name):
    """The definitions that a lemma may be named by, and all fields and facts: no dash stays."""
    if name in OTHERWISE:
        return OTHERWISE[name]
    if name[:1].isupper():
        return "".join(part[:1].upper() + part[1:] for part in name.split("-"))
    return re.sub(r"(?<=[a-z0-9])[A-Z]", lambda m: "_" + m[0].lower(), name).replace("-", "_")


def survey():
    """What a lemma may be named by, the definitions as they were spelled, and the fields."""
    functions, defined, fields = set(LIBRARY), set(), set()
    for path in antt_files():
        text = open(path).read()
        names = made(text) if path.endswith(("Answers.antt", "Invariants.antt")) else set()
        for words, name in DECLARED.findall(text):
            if name in names:
                continue
            if "abbrev" in words or "unfoldable" in words:
                functions.add(plain(name))
                defined.add(name)
        for body in re.findall(r"record [^\n]* where\n((?:  .*\n|\n)*)", text):
            fields.update(re.findall(r"^  pub ([^\s:]+) :", body, re.M))
    return functions, defined, fields


def spelled(name, functions, defined):
    if name in OTHERWISE or name in defined or name[:1].isupper():
        return plain(name)
    parts = [OTHERWISE.get(p, plain(p)) for p in name.split("-")]
    if len(parts) == 2 and all(p in functions for p in parts):
        return "-".join(parts)
    return "_".join(parts)


def candidates(word):
    body = word.rstrip("'′₀₁₂₃₄₅₆₇₈₉")
    return re.fullmatch(r"[A-Za-z][A-Za-z0-9_]*(-[A-Za-z0-9_]+)+", body) or re.fullmatch(r"[a-z][a-z0-9_]*[A-Z][A-Za-z0-9_]*", body) and "-" not in body


def turn(text, keep, names, table):
    functions, defined, fields = names
    code = set(WORD.findall(COMMENT.sub(" ", text)))
    comments = [m.span() for m in COMMENT.finditer(text)]

    def one(m):
        word = m[0]
        if word in keep or not candidates(word):
            return word
        before = text[: m.start()]
        if word not in code and any(a <= m.start() < b for a, b in comments):
            return word
        if before.endswith(".") and word not in fields:
            head = re.search(r"([A-Za-z][^\s(){}.;,]*)\.$", before)
            if not head or head[1] not in ("grants", "options", "results", "outcomes") and not re.search(r"Rattle\.[^\s]*$", before):
                return word
        new = spelled(word, functions, defined)
        table.setdefault(word, new)
        return new

    return WORD.sub(one, text)


def clauses(text):
    """The spans of a source's ghost text: `ghost use` lines, clauses, ghost fields and members."""
    for m in re.finditer(r"^ghost use [^;]*;", text, re.M):
        yield m.span()
    for m in re.finditer(r"(?:requires|ensures)\s*\*?\s*(?:\w+\s*)?\{|ghost\s+\w+\s*(?::|=)\s*\{", text):
        depth, i = 1, m.end()
        while depth:
            depth += {"{": 1, "}": -1}.get(text[i], 0)
            i += 1
        yield m.end(), i - 1


def main():
    names = survey()
    table, writes = {}, []
    for path in antt_files():
        text = open(path).read()
        keep = imported(text)
        if path.endswith(("Answers.antt", "Invariants.antt")):
            keep |= made(text)
        writes.append((path, turn(text, keep, names, table)))
    for path in sorted(glob.glob("crates/*/src/**/*.rt", recursive=True)):
        text = open(path).read()
        keep, out, at = imported(text), [], 0
        for start, end in sorted(clauses(text)):
            if start >= at:
                out += [text[at:start], turn(text[start:end], keep, names, table)]
                at = end
        writes.append((path, "".join(out) + text[at:]))
    if "--list" in sys.argv:
        for old, new in sorted(table.items()):
            print(f"{old}\t{new}")
        return
    for path, text in writes:
        open(path, "w").write(text)


main()
