#!/usr/bin/env python3
"""Measures the library beside another version of it: every function that reads files, on files of full size.

    (cd crates/citronhelm && rt lib) && (cd bench && cargo build --release)
    bench/versions.py OTHER       OTHER/libcitronhelm.a is the other version; needs valgrind

Instructions: those of one call, counted by callgrind inside the function. Times: both versions take turns in one process (versions.c);
the best round and the median one. Where a version refuses the files it is not measured. A function that the other version does not have
is left out."""
import os
import re
import subprocess
import sys
import tempfile

ROOT = os.path.join(os.path.dirname(os.path.abspath(__file__)), '..')
LIBRARY = os.path.join(os.environ.get('CITRONHELM_LIB', os.path.join(ROOT, 'crates/citronhelm/out')), 'libcitronhelm.a')
INSTRUCTIONS_A_ROUND = 500_000  # some 120 µs
CALLS = [  # function, inputs, bytes lent
    ('read_rule', ['rule.txt'], 0),
    ('read_take', ['take.txt'], 0),
    ('read_sheet', ['sheet.txt'], 0),
    ('read_rule', ['padded-rule.txt'], 0),
    ('read_take', ['padded-take.txt'], 0),
    ('read_sheet', ['padded-sheet.txt'], 0),
    ('bound', ['rule.txt'], 0),
    ('rows', ['rule.txt'], 0),
    ('normal', ['rule.txt'], 2845),
    ('normal_length', ['rule.txt'], 0),
    ('judge', ['rule.txt', 'take.txt'], 0),
    ('judge_looped', ['rule.txt', 'take.txt'], 0),
    ('judge_open', ['rule.txt', 'open.txt'], 0),
    ('judge_text', ['rule.txt', 'take.txt'], 64),
    ('step', ['rule.txt', 'pendings', 'activators', 'signals'], 384),
    ('make_sheet', ['rule.txt', 'take.txt'], 33567),
    ('sheet_length', ['rule.txt', 'take.txt'], 0),
    ('check_sheet', ['rule.txt', 'take.txt', 'sheet.txt'], 0),
    ('run_begin', ['rule.txt'], 1220),
    ('circuit', ['rule.txt'], 9789),
    ('simulate', ['circuit.aag', 'inputs', 'latches'], 500),
]


def said(*words):
    return subprocess.run(words, capture_output=True, check=True, text=True)


def write_inputs(folder):
    said(os.path.join(ROOT, 'target/bench/release/speed'), 'write', folder)
    for name, digits in (('pendings', '0' * 125), ('activators', '1' * 125), ('signals', '01' * 16)):
        with open(os.path.join(folder, name), 'w', encoding='ascii') as file:
            file.write(digits)


def renamed(other, folder):
    """The other version, each of its own symbols with `other_` before it."""
    copy = os.path.join(folder, 'libother.a')
    foreign = {line.split()[-1] for line in said('nm', '-u', other).stdout.splitlines() if ' U ' in line}
    said('objcopy', '--prefix-symbols=other_', other, copy)
    said('objcopy', *(f'--redefine-sym=other_{name}={name}' for name in foreign), copy)
    return copy


def common(other):
    """The calls of functions that the other version has too."""
    there = {line.split()[-1] for line in said('nm', '--defined-only', other).stdout.splitlines() if ' T ' in line}
    return [call for call in CALLS if f'citronhelm_{call[0]}' in there]


def built(other, calls, folder):
    program = os.path.join(folder, 'versions')
    functions = {function: len(inputs) for function, inputs, _ in calls}
    listed = ' '.join(f'EACH({function}, {inputs})' for function, inputs in functions.items())
    said('cc', '-std=c99', '-pedantic', '-Wall', '-Wextra', '-Werror', '-O2', '-I', os.path.join(ROOT, 'include'),
         f'-DFUNCTIONS(EACH)={listed}', os.path.join(ROOT, 'bench/versions.c'), LIBRARY, renamed(other, folder), '-Wl,-z,now',
         '-o', program)
    return program


def instructions(call, name):
    told = said('valgrind', '--tool=callgrind', '--callgrind-out-file=/dev/null', f'--toggle-collect={name}', *call).stderr
    return int(re.search(r'Collected : (\d+)', told)[1])


def measured(program, folder, function, inputs, lent):
    """What is said of a call: its instructions and its times, of the other version, of this one, and their ratios."""
    def call(calls):
        return [program, function, str(lent), str(calls), *(os.path.join(folder, name) for name in inputs)]

    answers = [int(answer, 16) for answer in said(*call(0)).stdout.split()]
    counts = [instructions(call(0), f'{prefix}citronhelm_{function}') for prefix in ('', 'other_')]
    lines = said(*call(1 + INSTRUCTIONS_A_ROUND // max(counts))).stdout.splitlines()[2:]
    times = [[float(time) / 1000 for time in line.split()] for line in lines]
    told = [('refused', 'refused') if answer >> 63 else (f'{count:,}', '; '.join(f'{time:.2f}' for time in both))
            for answer, count, both in zip(answers, counts, times)]
    ratios = ['', '']
    if not any(answer >> 63 for answer in answers):
        assert answers[0] == answers[1], (function, inputs, answers)
        ratios = [f'{counts[0] / counts[1]:.4f}', '; '.join(f'{mine / others:.3f}' for mine, others in zip(*times))]
    return [told[1][0], told[0][0], ratios[0], told[1][1], told[0][1], ratios[1]]


def main():
    if len(sys.argv) != 2:
        sys.exit(__doc__)
    print('| function | instructions, other | this | this to other | µs a call, best; median, other | this | this to other |')
    print('|---|---|---|---|---|---|---|')
    with tempfile.TemporaryDirectory() as folder:
        write_inputs(folder)
        other = os.path.join(sys.argv[1], 'libcitronhelm.a')
        calls = common(other)
        program = built(other, calls, folder)
        for function, inputs, lent in calls:
            cells = measured(program, folder, function, inputs, lent)
            print('|', ' | '.join([f'`{function}`, {", ".join(os.path.splitext(name)[0] for name in inputs)}', *cells]), '|', flush=True)


main()
