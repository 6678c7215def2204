#!/usr/bin/env python3
"""Runs a program in the place of `judge`, `sheet` or `check_sheet` on each case that crates/try_services has of it, the case's files as
rule.txt, take.txt and sheet.txt of a folder of their own, and holds what it prints to that crate's file `stdout`.

    tests/run_cases.py judge|sheet|check_sheet PROGRAM [WORDS...]"""
import os
import shutil
import subprocess
import sys
import tempfile

HERE = os.path.join(os.path.dirname(os.path.abspath(__file__)), '..', 'crates', 'try_services')
PLACES = ['rule.txt', 'take.txt', 'sheet.txt']


def expected():
    """What must be printed of each case."""
    with open(os.path.join(HERE, 'args')) as f:
        cases = f.read().splitlines()
    with open(os.path.join(HERE, 'stdout')) as f:
        text = f.read()
    starts = [0]
    for case in cases[1:]:
        starts.append(text.index(f'\n{case}\n', starts[-1]) + 1)
    return {case: text[start + len(case) + 1:end] for case, start, end in zip(cases, starts, [*starts[1:], len(text)])}


def printed(program, names):
    with tempfile.TemporaryDirectory() as folder:
        for name, place in zip(names, PLACES):
            if os.path.exists(os.path.join(HERE, 'data', name)):
                shutil.copy(os.path.join(HERE, 'data', name), os.path.join(folder, place))
        return subprocess.run(program, cwd=folder, capture_output=True, check=True, text=True).stdout


def main():
    if len(sys.argv) < 3 or sys.argv[1] not in ('judge', 'sheet', 'check_sheet'):
        sys.exit(__doc__)
    program = [os.path.abspath(sys.argv[2])] + sys.argv[3:]
    cases = {case: text for case, text in expected().items() if case.split(' ')[0] == sys.argv[1]}
    different = 0
    for case, text in cases.items():
        got = printed(program, case.split(' ')[1:])
        if got != text:
            different += 1
            print(f'{case}: expected {text!r}, printed {got!r}')
    print(f'{len(cases)} cases, {different} different')
    sys.exit(bool(different))


main()
