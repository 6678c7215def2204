#!/usr/bin/env python3
"""Chooses a small corpus: inputs of up to 1,000 bytes that together reach every edge that any of those given reaches.

    fuzz/smallest.py FROM TO TARGET...

FROM/TARGET.edges has a line for each input: its name and the numbers of its edges (edges.c). The inputs chosen are written to
TO/TARGET. An edge that an earlier target's inputs reach is not reached again: what is wrong in a single file stands with the
targets of single files.
"""
import pathlib
import shutil
import sys

LONGEST = 1000


def length(name):
    return pathlib.Path(name).stat().st_size


def chosen(edges, missing):
    """Names of inputs that reach all missing edges: always the one with most of them, among equals the shortest."""
    while missing:
        best = max(sorted(edges), key=lambda name: (len(edges[name] & missing), -length(name)))
        missing = missing - edges[best]
        yield best


def main():
    if len(sys.argv) < 4:
        sys.exit(__doc__)
    source, goal = pathlib.Path(sys.argv[1]), pathlib.Path(sys.argv[2])
    reached = set()
    for target in sys.argv[3:]:
        lines = [line.split() for line in (source / f"{target}.edges").read_text().splitlines()]
        edges = {name: {int(number) for number in numbers} for name, *numbers in lines if length(name) <= LONGEST}
        missing = set().union(*edges.values()) - reached
        contents = [pathlib.Path(name).read_bytes() for name in chosen(edges, missing)]
        reached |= missing
        shutil.rmtree(goal / target, ignore_errors=True)
        (goal / target).mkdir(parents=True)
        for number, content in enumerate(contents):
            (goal / target / f"{number:03}").write_bytes(content)


main()
