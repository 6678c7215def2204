#!/usr/bin/env python3
"""Brings the must-fail edits of what had landed to today's spelling, once.

usage: python3 tools/edits.py [CRATE..]      at the top of the repository

An edit of the landed commit (the first line of docs/PORT.md) is written anew over the files as they stand now: its texts on src/, specs/ and lemma files are turned
to today's spelling, and its pairs on proofs/**/Proof.antt go, with what its first line says of that proof, since a proof is Answers.antt and Invariants.antt today.
What no longer stands in its file just once is told, and mended by hand.
"""

import glob
import os
import re
import subprocess
import sys

NAME = re.compile(r"[A-Za-z][\w′'-]*")


def landed(*words):
    """What git says at the landed commit."""
    return subprocess.run(["git", *words], capture_output=True, text=True, check=True).stdout


def plain(name):
    """A name whatever its spelling."""
    return name.replace("-", "").replace("_", "").replace("′", "'").lower()


def names_of(text):
    return {m[0] for m in NAME.finditer(text)}


def turned(text, today):
    """A text of definitions in today's spelling, by the names that today's files have."""
    text = re.sub(r"\(([\w′']+)((?: \.[\w-]+)+)\)", lambda m: m[1] + m[2].replace(" ", ""), text)
    text = re.sub(r"(?<=[\w′')]) \.(?=[a-z])", ".", text)
    text = re.sub(r"(?<![\w◌])_([^\w\s(){}]+)_(?![\w◌])", r"◌\1◌", text)
    text = text.replace("Rattle·", "Rattle.")

    def name(m):
        found = today.get(plain(m[0]), set())
        return m[0] if m[0] in found or len(found) != 1 else next(iter(found))

    return NAME.sub(name, text)


def without_proof(line):
    """The first line of an edit without what it says of its proof."""
    return re.sub(r" \((?:[^()]*\b[Pp]roofs?\b[^()]*)\)$", "", line)


def main():
    commit = open("docs/PORT.md", encoding="utf-8").readline().strip()
    crates = sys.argv[1:] or sorted(os.path.basename(c) for c in glob.glob("crates/*"))
    told = 0
    for crate in crates:
        today = {}
        for f in glob.glob(f"crates/{crate}/specs/**/*.antt", recursive=True) + glob.glob(f"crates/{crate}/proofs/*.antt"):
            for n in names_of(open(f, encoding="utf-8").read()):
                today.setdefault(plain(n), set()).add(n)
        listed = landed("ls-tree", "--name-only", commit, f"crates/{crate}/must-fail/").split()
        for edit in listed:
            path, pairs, head, dropped = "", [], [], 0
            for line in landed("show", f"{commit}:{edit}").split("\n"):
                if line.startswith("#"):
                    head.append(line)
                elif line.startswith("file: "):
                    path = line[6:].strip()
                elif line.startswith("old: "):
                    old = line[5:]
                elif line.startswith("new:"):
                    if path.endswith("Proof.antt"):
                        dropped += 1
                    else:
                        pairs.append((path, old, line[5:]))
            if dropped:
                head = [h for h in (without_proof(h) for h in head) if h]
            out, was, texts = head, "", {}
            for path, old, new in pairs:
                if path.endswith(".antt"):
                    old, new = turned(old, today), turned(new, today)
                file = f"crates/{crate}/{path}"
                if path != was:
                    out.append(f"file: {path}")
                    was = path
                if file not in texts:
                    texts[file] = open(file, encoding="utf-8").read()
                found = texts[file].count(old)
                if found != 1:
                    told += 1
                    print(f"edits: {edit}: {path}: stands {found} times: {old}")
                texts[file] = texts[file].replace(old, new)
                out += [f"old: {old}", f"new: {new}" if new else "new:"]
            with open(edit, "w", encoding="utf-8") as f:
                f.write("\n".join(out) + "\n")
    print(f"edits: {told} texts are to be mended by hand")


if __name__ == "__main__":
    main()
