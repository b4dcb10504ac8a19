#!/usr/bin/env python3
"""Spells the repository's own names as today's library does: definitions, lemmas and fields in snake case.

usage: tools/spell.py [--table] [FOLDER]

With --table it writes tools/spelling.tsv, a row for each name that changes (old, a tab, new), from what specs/ and proofs/ of all crates
declare. Without, it applies that table to the tree at FOLDER (the current folder, if none is named): to the antt of specs/ and proofs/, to
clauses, `ghost use` items and comments' code spans of src/, to must-fail edits, and to code spans of the pages. Names of Rust's own stay.
A lemma that would have a definition's name gets '_lem' behind it.
"""

import collections
import glob
import os
import re
import sys

HERE = os.path.dirname(os.path.realpath(__file__))
TABLE = os.path.join(HERE, "spelling.tsv")
WORD = r"[^\s(){}.;,@\"«»\[\]\\:`|]+"
DECLARED = re.compile(rf"^(\s*)((?:(?:pub|abbrev|unfoldable) )*)({WORD})(?: \{{[^}}]*\}}| \([^)]*\))* : ")
OF_A_LIBRARY = re.compile(r"use (?:Rattle\.std|mathlib|Prim|native|borrow|lib|denote|logic|tests)\b[^\n{;]*\{([^}]*)\}")


def snake(name):
    return re.sub(r"([a-z0-9])([A-Z])", lambda m: m[1] + "_" + m[2].lower(), name).replace("-", "_")


def files(top, *patterns):
    return sorted(p for pattern in patterns for p in glob.glob(f"{top}/{pattern}", recursive=True) if "/out/" not in p)


def read(path):
    with open(path, encoding="utf-8", newline="") as it:
        return it.read()


def declared(top):
    kinds = collections.defaultdict(set)
    for path in files(top, "crates/*/specs/**/*.antt", "crates/*/proofs/**/*.antt"):
        inside = -1
        for line in read(path).split("\n"):
            depth = len(line) - len(line.lstrip())
            if line.strip() and depth <= inside:
                inside = -1
            if re.match(r" *(pub )?record ", line):
                inside = depth
            m = DECLARED.match(line)
            if m and 0 <= inside < depth:
                kinds[m[3]].add("field")
                continue
            if m and m[3] not in ("let", "--", "use", "λ", "where", "module", "record", "data"):
                kinds[m[3]].add("definition" if re.search("abbrev|unfoldable", m[2]) else "lemma")
    return kinds


def table(top):
    kinds = declared(top)
    library = set()
    for path in files(top, "crates/**/*.antt", "crates/**/*.rt"):
        for m in OF_A_LIBRARY.finditer(read(path)):
            library |= {it.split(" as ")[0].strip() for it in m[1].split(",")}
    rows, taken = {}, {}
    order = sorted(kinds, key=lambda it: ("definition" not in kinds[it], "-" in it, it))
    for name in order:
        if not re.match("[a-z]", name) or "◌" in name or name in library:
            continue
        new = snake(name)
        if kinds[name] != {"field"}:
            while new in taken or (new in library and new != name):
                new += "_lem"
            taken[new] = name
        if new != name:
            rows[name] = new + "\tfield too" * ("field" in kinds[name] and new.endswith("_lem"))
    return rows


def spelled(text, rows, is_antt):
    """Turns whole words; in a comment those of camel case, and those in code spans. Behind a dot stands a field."""
    if not is_antt:
        rows = {old: new for old, new in rows.items() if re.search("[A-Z-]", old)}
    word = lambda it: rows.get(it, it).split("\t")[0]
    field = lambda it: word(it) if "\t" in rows.get(it, it) else re.sub("(_lem)+$", "", word(it))
    turn = lambda it: re.sub(rf"(?<=\.){WORD}", lambda m: field(m[0]), re.sub(rf"(?<!\.){WORD}", lambda m: word(m[0]), it))
    spans = lambda it: re.sub(r"`[^`]*`", lambda m: turn(m[0]), it)
    camel = lambda it: re.sub(WORD, lambda m: word(m[0]) if re.search("[a-z][A-Z]", m[0]) else m[0], it)
    out = []
    for line in text.split("\n"):
        mark = "--" if is_antt else "//"
        m = re.match(rf"(.*?)((?:^|(?<=\s)){mark}(?=\s|$).*)$", line)
        code, comment = (m[1], m[2]) if m else (line, "")
        out.append(turn(code) + camel(spans(comment)))
    return "\n".join(out)


def spell_edit(text, rows):
    is_antt = bool(re.search(r"(?m)^file: \S+\.antt$", text))
    turn = lambda it: it if it.startswith("file:") else spelled(it, rows, is_antt)
    return "\n".join(turn(line) for line in text.split("\n"))


def main():
    words = [it for it in sys.argv[1:] if it != "--table"]
    top = words[0] if words else "."
    if "--table" in sys.argv:
        with open(TABLE, "w", encoding="utf-8") as it:
            it.writelines(f"{old}\t{new}\n" for old, new in sorted(table(top).items()))
        return
    rows = dict(line.split("\t", 1) for line in read(TABLE).split("\n") if line)
    changed = 0
    for path in files(top, "crates/*/specs/**/*.antt", "crates/*/proofs/**/*.antt", "crates/*/src/**/*.rt", "crates/*/must-fail/*.edit", "*.md", "docs/**/*.md", "tests/*.md", "bench/*.md"):
        text = read(path)
        if path.endswith(".edit"):
            new = spell_edit(text, rows)
        elif path.endswith(".md"):
            dashed = {old: new for old, new in rows.items() if re.search("[A-Z-]", old)}
            new = re.sub(r"`[^`\n]*`", lambda m: re.sub(WORD, lambda w: dashed.get(w[0], w[0]).split("\t")[0], m[0]), text)
        else:
            new = spelled(text, rows, path.endswith(".antt"))
        if new != text:
            with open(path, "w", encoding="utf-8", newline="") as it:
                it.write(new)
            changed += 1
    print(f"spell: {changed} files")


main()
