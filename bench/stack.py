#!/usr/bin/env python3
"""Says how much stack each function of the library needs: bytes below the call, the return address included.

    (cd crates/citronhelm && rt lib) && (cd bench && cargo build --release)
    bench/stack.py             measured, with the bound beside it
    bench/stack.py lazy        measured with what the loader takes to bind memcpy and memset at their first call
    bench/stack.py bound       the bound alone, as the gate does it

The first and the last fail where include/citronhelm.h promises less than is needed.

Measured: each function on a painted stack (stack.c), on files of full size and on refused ones, with long and short outputs; the most
that a call took.

The bound is read off the machine code and is one for all inputs: the frames along the deepest path of calls. It can be read off since no
function calls itself, none is called by pointer, and each moves its stack pointer by constants, so that at each instruction it is as deep
on every way there; where that is not so, this script fails. Of a function the deepest place counts, as if it called from there. For memcpy
and memset it takes SYSTEM bytes."""
import collections
import functools
import os
import re
import subprocess
import sys
import tempfile

ROOT = os.path.join(os.path.dirname(os.path.abspath(__file__)), '..')
LIBRARY = os.path.join(os.environ.get('CITRONHELM_LIB', os.path.join(ROOT, 'crates/citronhelm/out')), 'libcitronhelm.a')
HEADER = os.path.join(ROOT, 'include/citronhelm.h')
SYSTEM = 128  # Debian's glibc takes 8, the return address


def disassembled():
    """The instructions of each function by their addresses, as triples of a name, its operands, and what a relocation has for them."""
    text = subprocess.run(['objdump', '-dr', '--no-show-raw-insn', LIBRARY], capture_output=True, check=True, text=True).stdout
    functions = {}
    for line in text.split('\n'):
        if head := re.fullmatch(r'[0-9a-f]+ <(.*)>:', line):
            functions[head[1]] = instructions = {}
        elif instruction := re.fullmatch(r' +([0-9a-f]+):\t(\S+) *(.*)', line):
            last = int(instruction[1], 16)
            instructions[last] = instruction[2], instruction[3].strip(), None
        elif target := re.fullmatch(r'\t+[0-9a-f]+: R_X86_64_(?:PLT|PC)32\t(?:\.text\.)?(.*?)-0x4', line):
            instructions[last] = *instructions[last][:2], target[1]
    return functions


def moved(instruction, operands):
    """By how many bytes an instruction moves the stack pointer down."""
    if instruction in ('push', 'pop'):
        return 8 if instruction == 'push' else -8
    if move := re.fullmatch(r'\$0x([0-9a-f]+),%rsp', operands):
        assert instruction in ('sub', 'add'), (instruction, operands)
        size = int(move[1], 16)
        size -= (size >> 63) << 64
        return size if instruction == 'sub' else -size
    if move := re.fullmatch(r'(-?)0x([0-9a-f]+)\(%rsp\),%rsp', operands):
        assert instruction == 'lea', (instruction, operands)
        return int(move[2], 16) if move[1] else -int(move[2], 16)
    assert instruction not in ('enter', 'leave') and not operands.endswith(',%rsp'), (instruction, operands)
    return 0


def probed(code, at):
    """The bytes that a loop takes which goes down step by step to an end in r11, and where it ends; (0, None) where none begins here."""
    if code[at][:2] != ('mov', '%rsp,%r11'):
        return 0, None
    sub, step, touch, compare, back, behind = [it for it in sorted(code) if it > at][:6]
    size = re.fullmatch(r'\$0x([0-9a-f]+),%r11', code[sub][1])
    assert size and [code[it][0] for it in (sub, step, touch, compare, back)] == ['sub', 'sub', 'movq', 'cmp', 'jne'], (at, code[sub])
    assert re.fullmatch(r'\$0x[0-9a-f]+,%rsp', code[step][1]) and code[back][1].startswith(f'{step:x} '), (code[step], code[back])
    return int(size[1], 16), behind


def frame(name, code):
    """The bytes that a function has below its return address at most, and what it calls. How deep the stack is at an instruction has to
    be the same on every way there, and 0 where the function returns or goes on to another."""
    order, depths, calls, tables = sorted(code), {}, set(), set()
    behind = dict(zip(order, order[1:]))
    most = below = touched = 0
    left = [(order[0], 0)]
    while left:
        at, depth = left.pop()
        if at in depths:
            assert depths[at] == depth, (name, hex(at), depths[at], depth)
        else:
            depths[at] = depth
            instruction, operands, target = code[at]
            size, end = probed(code, at)
            if place := re.search(r'-0x([0-9a-f]+)\(%rsp', operands):
                if not operands.endswith('(%rsp),%rsp'):
                    below = max(below, int(place[1], 16))
                    touched = max(touched, below if instruction != 'lea' else 0)
            if end is not None:
                most = max(most, depth + size)
                depths.update((it, depth) for it in order if at < it < end)
                left.append((end, depth + size))
            elif instruction == 'ret' or instruction == 'ud2':
                assert instruction == 'ud2' or depth == 0, (name, hex(at), depth)
            elif instruction.startswith('j') and target is not None:
                assert depth == 0, (name, hex(at), depth)
                calls.add(target)
                left += [(behind[at], depth)] if instruction != 'jmp' else []
            elif instruction == 'jmp' and operands.startswith('*'):
                tables.add(depth)
            elif instruction.startswith('j'):
                left.append((int(operands.split()[0], 16), depth))
                left += [(behind[at], depth)] if instruction != 'jmp' else []
            else:
                if instruction == 'call':
                    assert target is not None, (name, hex(at), operands)
                    calls.add(target)
                depth += moved(instruction, operands)
                most = max(most, depth)
                assert depth >= 0, (name, hex(at))
                left.append((behind[at], depth))
        if not left:
            # what is not reached yet is where a table of jumps leads, or fills up behind a jump
            rest = [it for it in order if it not in depths and not re.match(r'nop|xchg|int3|data16|cs$', code[it][0])]
            assert not rest or len(tables) == 1, (name, hex(rest[0]), tables)
            left += [(it, depth) for it in rest[:1] for depth in tables]
    # a function that calls none may use 128 bytes below its stack pointer; in others only addresses are computed from there
    assert below <= 128 and not (touched and calls), (name, below, calls)
    return most + (0 if calls else below), calls


def bounds():
    frames = {name: frame(name, instructions) for name, instructions in disassembled().items()}

    @functools.cache  # and a function that calls itself ends this in an error
    def need(name):
        if name in ('memcpy', 'memset'):
            return SYSTEM
        size, calls = frames[name]
        return 8 + size + max(map(need, calls), default=0)

    return {name.removeprefix('citronhelm_'): need(name) for name in frames if name.startswith('citronhelm_')}


def promised():
    with open(HEADER, encoding='ascii') as header:
        return {name.lower(): int(size) for name, size in re.findall(r'#define CITRONHELM_STACK_(\w+) (\d+)u', header.read())}


def full_size(folder):
    """The rule, the looped take, the open one, the sheet, the circuit with its inputs and latches, and the runs of full size, the last of
    which has all cycles."""
    subprocess.run([os.path.join(ROOT, 'target/bench/release/speed'), 'write', folder], check=True)
    files = []
    for name in ('rule.txt', 'take.txt', 'open.txt', 'sheet.txt', 'circuit.aag', 'inputs', 'latches', 'run-0', 'run-128', 'run-255',
                 'run-256'):
        with open(os.path.join(folder, name), 'rb') as file:
            files.append(file.read())
    return files


def damaged(file):
    """A file as it is; empty; at the limit of length and beyond it, refused in its first line or behind its last one; with a last line
    that is not of its form, or has no line feed."""
    yield file
    yield b''
    yield b'a' * 65536
    yield b'a' * 65537
    yield file + b'a' * (65536 - len(file))
    yield file + b'a' * (65537 - len(file))
    yield file[:-2] + b'x\n'
    yield file[:-1]


def changed(run):
    """A run as it is; with other lengths; with a byte changed among its digits, its rows, behind these, and in each of its counts."""
    yield run
    yield b''
    yield run[:-1]
    yield run + b'\0'
    for place in (0, 511, 1023, 1024, 1025, 1214, 1215, 1216, 1217, 1218, 1219):
        yield run[:place] + bytes([run[place] ^ 130]) + run[place + 1:]


def with_row(rule, row):
    """The rule with another root: with `true` every take holds or is kept, with `false` it breaks or is broken."""
    return rule[:rule.rindex(b'=') + 1] + row + b'\n'


def turned(sheet, line, place):
    """The sheet with one digit turned; its line and its place in it are counted from the end."""
    lines = sheet.split(b'\n')
    digits = bytearray(lines[-1 - line])
    digits[-place] ^= 1
    lines[-1 - line] = bytes(digits)
    return b'\n'.join(lines)


def calls(folder):
    """Each function with its inputs and output lengths to try."""
    rule, looped, opened, sheet, circuit, inputs, latches, *runs = full_size(folder)
    other = rule.replace(b'signals=32', b'signals=31').replace(b'sig 32', b'sig 31')
    rules = [*damaged(rule), with_row(rule, b'true'), with_row(rule, b'false'), b'format=1\nsignals=32\nrows=1\nr1=true\n', other]
    takes = [*damaged(looped), *damaged(opened)]
    cycles = sheet.split(b'\n')[2]
    sheets = [*damaged(sheet), turned(sheet, 1, 256), *(turned(sheet, line, place) for line in (1, 2, 60, 125) for place in (1, 2, 128, 255)),
              re.sub(rb'[01](?=[01]*\n)', b'1', sheet), sheet.replace(cycles, b'cycles=255')]
    for one in rules:
        for name in ('read_rule', 'bound', 'rows', 'normal_length'):
            yield name, [one], [0]
        yield 'normal', [one], [0, 2845]
        yield 'circuit', [one], [0, 9789]
        yield 'run_begin', [one], [0, 1219, 1220, 2000]
        rows = b'0' * 125
        for pendings, activators, signals in ((rows, rows, b'0' * 32), (b'1' * 125, b'1' * 125, b'1' * 32), (rows, b'1' * 125, b'0' * 32),
                                              (rows, rows, b'0' * 31), (rows, rows[1:], b'0' * 32), (b'2' + rows[1:], rows, b'0' * 32)):
            yield 'step', [one, pendings, activators, signals], [0, 384]
        for two in takes:
            for name in ('judge', 'judge_looped', 'judge_open', 'sheet_length'):
                yield name, [one, two], [0]
            yield 'judge_text', [one, two], [0, 64]
            yield 'make_sheet', [one, two], [0, 33567]
    for one in takes:
        yield 'read_take', [one], [0]
    for one in sheets:
        yield 'read_sheet', [one], [0]
        for two in (looped, opened):
            yield 'check_sheet', [rule, two, one], [0]
    for one in rules:
        for two in (looped, opened, b''):
            yield 'check_sheet', [one, two, sheet], [0]
    chain = b''.join(b'%d %d 1\n' % (2 * k, 2 * k - 1) for k in range(5471, 1, -1))
    longest = [b'aag 5471 1 0 1 5470\n2\n10942\n' + chain, b'aag 0 0 0 32759 0\n' + b'1\n' * 32759]
    for one in [*damaged(circuit), *longest]:
        for digits in ((inputs, latches), (inputs[1:], latches), (inputs, latches[1:]), (b'2' + inputs[1:], latches), (b'1', b''),
                       (b'', b'')):
            yield 'simulate', [one, *digits], [0, 500, 33000]
    for run in runs:
        for one in changed(run):
            yield 'run_verdict', [one], [0]
            for digits in (b'01' * 16, b'0' * 31, b'1' * 33, b'0' * 31 + b'2', b''):
                yield 'run_cycle', [one, digits], [0]


def measured(binding):
    """For each function the number of calls, of those answered, and the most that one took."""
    counts = collections.defaultdict(lambda: [0, 0, 0])
    with tempfile.TemporaryDirectory() as folder:
        program = os.path.join(folder, 'stack')
        subprocess.run(['cc', '-std=c99', '-O2', '-I', os.path.dirname(HEADER), os.path.join(ROOT, 'bench/stack.c'), LIBRARY, *binding,
                        '-o', program], check=True)
        for name, inputs, lengths in calls(folder):
            names = [os.path.join(folder, str(number)) for number in range(len(inputs))]
            for path, content in zip(names, inputs):
                with open(path, 'wb') as file:
                    file.write(content)
            for length in lengths:
                said = subprocess.run([program, name, str(length), *names], capture_output=True, check=True, text=True).stdout
                answer, took = said.split()
                count = counts[name]
                count[:] = count[0] + 1, count[1] + (int(answer, 16) >> 63 == 0), max(count[2], int(took))
    return counts


def main():
    word = ''.join(sys.argv[1:])
    bound, promise = bounds(), promised()
    measure = {} if word == 'bound' else measured(['-no-pie', '-Wl,-z,lazy'] if word == 'lazy' else ['-Wl,-z,now'])
    if measure:
        print('| function | calls | of them answered | most measured | bound | in the header |\n|---|---|---|---|---|---|')
        for name in promise:
            print('|', ' | '.join([f'`citronhelm_{name}`', *(f'{number:,}' for number in (*measure[name], bound[name], promise[name]))]), '|')
    if word == 'lazy':
        return
    wrong = [name for name in bound if not measure.get(name, [0])[-1] <= bound[name] <= promise.get(name, 0)]
    if wrong or bound.keys() != promise.keys():
        sys.exit(f'bench/stack.py: include/citronhelm.h promises less stack than is needed: {[(name, bound[name]) for name in wrong]}')


if __name__ == '__main__':
    main()
