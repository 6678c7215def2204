#!/usr/bin/env python3
"""Brings this repository's own names in specs/ and proofs/ to today's spelling, once, right after port.py.

usage: python3 tools/respell.py        at the top of the repository

A function or a lemma is in snake case (`rowsOf`, `rows-of` become `rows_of`), a function into Type in upper camel case. Where a
definition and a lemma fall together, the lemma's name ends in `_lem`. The names of src/, of programs and of files, and what
Rattle makes, stay. It goes by the kit's snake.py, which turns whole words in code, clauses and the code spans of comments and pages.
"""

import collections
import glob
import os
import re
import subprocess
import sys
import tempfile

SNAKE = "/opt/rattle/port/notes/2026-11-18-names-are-in-snake-case/snake.py"
SIGNATURE = re.compile(r"^(\s*)(?:abbrev |unfoldable |pub )*([A-Za-z][^\s(){}:.,;]*)\s*(?:[({].*[)}])?\s*:\s*(.*)$")
INTO_TYPE = re.compile(r"(?:→|^)\s*Type 0$")


def snake(name):
    out = re.sub(r"(?<=[a-z0-9])([A-Z])", lambda m: "_" + m.group(1).lower(), name)
    return out.replace("-", "_")


def main():
    names = collections.defaultdict(set)
    into_type = set()
    library = set()
    crates = {line.split(":")[0].split()[0] for line in open("crates.txt", encoding="utf-8") if ":" in line and not line.startswith("#")}
    files = sorted(glob.glob("crates/*/specs/**/*.antt", recursive=True) + glob.glob("crates/*/proofs/**/*.antt", recursive=True))
    for f in files:
        with open(f, encoding="utf-8") as opened:
            text = opened.read()
        for path, items in re.findall(r"^use ([\w.]+)\.\{([^}]*)\}", text, re.M):
            first, second = (path + ".").split(".")[:2]
            if not (first == "Rattle" and second in crates):
                library.update(item.split(" as ")[0].strip() for item in items.split(","))
        for line in text.split("\n"):
            if line.lstrip().startswith(("--", "use ", "let ", "λ", "elim", "(", "|", "in ")):
                continue
            m = SIGNATURE.match(line)
            if not m or (f.endswith("/Proof.antt") and m.group(3).startswith("tie.")):
                continue
            name = m.group(2)
            names[name].add(f)
            if INTO_TYPE.search(m.group(3)) and name[0].islower() and re.search("[A-Z]", name):
                into_type.add(name)
    for f in glob.glob("crates/*/proofs/**/Proof.antt", recursive=True):
        for name in re.findall(r"^pub ([\w-]+-spec) :", open(f, encoding="utf-8").read(), re.M):
            names.pop(name, None)
    table = {}
    for name in names:
        if not name[0].islower():
            continue
        if name in library:
            print(f"respell: {name} is also a library's: it stays")
            continue
        if name in into_type:
            table[name] = name[0].upper() + name[1:]
        elif re.search(r"[a-z0-9][A-Z]", name) or "-" in name:
            table[name] = snake(name)
    # a lemma gives way to a definition; port.py has turned some of either before
    falls = collections.defaultdict(set)
    for old, new in table.items():
        falls[new].add(old)
    for new, olds in sorted(falls.items()):
        camel = sorted(o for o in olds if "-" not in o)
        lemmas = sorted(o for o in olds if "-" in o)
        if new in names and camel:
            lemmas.append(new)
        if camel and lemmas:
            for lemma in lemmas:
                table[lemma] = new + "_lem"
                print(f"respell: {camel[0]} and {lemma} fall together: {new}, {new}_lem")
        elif new in names:
            for lemma in lemmas:
                table[lemma] = new + "_lem"
                print(f"respell: {lemma} falls on {new}: {new}_lem")
        elif len(lemmas) > 1:
            print(f"respell: {lemmas} all become {new}")
    with tempfile.NamedTemporaryFile("w", suffix=".tsv", delete=False) as out:
        for old, new in sorted(table.items()):
            out.write(f"{old}\t{new}\n")
    print(f"respell: {len(table)} names")
    pages = [p for p in ("README.md", "docs", "bench", "fuzz", "rust", "examples", "include") if os.path.exists(p)]
    code = subprocess.run([sys.executable, SNAKE, "--table", out.name, "--only", "antt,rt,md", "--prose", "none", "crates", *pages])
    os.unlink(out.name)
    sys.exit(code.returncode)


if __name__ == "__main__":
    main()
