#!/usr/bin/env python3
"""Hands circuits that the library writes to tools that others wrote: yosys must read each (read_aiger), berkeley-abc must read it in the
report's binary form, and Icarus Verilog simulates what yosys makes of it, on random inputs from latches at 0, beside our step from a fresh
start and beside our own simulator. By hand, not in the gate.

    apt-get install yosys berkeley-abc iverilog
    (cd crates/citronhelm && rt lib)
    tests/circuit_tools.py [--rules N] [--cycles N] [--seed N]

The circuits are those of all rules in examples/ that are accepted, and of N random ones. Prints every difference and what was seen; the
status is 1 where there is one."""
import argparse
import concurrent.futures
import ctypes
import glob
import os
import random
import re
import subprocess
import sys
import tempfile

HERE = os.path.join(os.path.dirname(os.path.abspath(__file__)), '..')
LEAVES = ('true', 'false', 'sig', 'nsig')
ONE = ('not', 'next', 'always', 'ever')
TWO = ('and', 'or', 'weak', 'until', 'release', 'srelease')


class Library:
    def __init__(self, folder):
        archive = os.path.join(HERE, 'crates', 'citronhelm', 'out', 'libcitronhelm.a')
        if not os.path.exists(archive):
            sys.exit('tests/circuit_tools.py: build the library first: (cd crates/citronhelm && rt lib)')
        shared = os.path.join(folder, 'citronhelm.so')
        subprocess.run(['cc', '-shared', '-o', shared, '-Wl,--whole-archive', archive, '-Wl,--no-whole-archive'], check=True)
        self.library = ctypes.CDLL(shared)

    def call(self, name, *inputs, room=0):
        """What the function answers for inputs that are bytes, and so many bytes of its output."""
        function = getattr(self.library, 'citronhelm_' + name)
        function.restype = ctypes.c_uint64
        handed = [x for data in inputs for x in (data, ctypes.c_size_t(len(data)))]
        output = (ctypes.c_uint8 * room)()
        answer = function(*handed, *((output, ctypes.c_size_t(room)) if room else ()))
        return answer, bytes(output[:answer]) if answer >> 63 == 0 and room else b''


def random_rule(dice):
    """Rows mostly have operands close by, so that most of them are reached, many under both signs."""
    signals, rows = dice.choice((1, 2, 3, 5, 32)), dice.choice((1, 3, 8, 21, 34, 64, 64, 64))
    lines = []
    for k in range(1, rows + 1):
        kind = dice.choice(LEAVES if k == 1 or dice.random() < 0.2 and k < rows else ONE + TWO + TWO)
        operands = 0 if kind in LEAVES else 1 if kind in ONE else 2
        words = [dice.randint(max(1, k - 3), k - 1) if dice.random() < 0.8 else dice.randint(1, k - 1) for _ in range(operands)]
        words += [dice.randint(1, signals)] if kind in ('sig', 'nsig') else []
        lines.append(f'r{k}={" ".join(str(w) for w in [kind, *words])}\n')
    return f'format=1\nsignals={signals}\nrows={rows}\n{"".join(lines)}'.encode()


def binary(text):
    """The report's binary form of a file whose literals are in order, as ours are."""
    lines = [[int(n) for n in line.split()] for line in text.decode().replace('aag ', '', 1).splitlines()]
    m, i, l, o, a = lines[0]
    body = lines[1:]
    assert [x for [x] in body[:i]] == [2 * k for k in range(1, i + 1)]
    out = [f'aig {m} {i} {l} {o} {a}\n'.encode()]
    for k, (current, following) in enumerate(body[i:i + l], i + 1):
        assert current == 2 * k
        out.append(b'%d\n' % following)
    out += [b'%d\n' % x for [x] in body[i + l:i + l + o]]
    for k, (left, first, second) in enumerate(body[i + l + o:], i + l + 1):
        high, low = max(first, second), min(first, second)
        assert left == 2 * k and high < left
        for delta in (left - high, high - low):
            while delta >= 128:
                out.append(bytes([delta & 127 | 128]))
                delta >>= 7
            out.append(bytes([delta]))
    return b''.join(out)


BENCH = '''module bench;
  reg clk = 0;
  reg [0:{last_input}] given [0:{last_cycle}];
  reg [0:{last_input}] in;
  wire [0:{last_output}] out;
  integer i;
  monitors dut(clk, {inputs}, {outputs});
  initial begin
    $readmemb("{name}.in", given);
    for (i = 0; i <= {last_cycle}; i = i + 1) begin
      in = given[i];
      #1 $display("%b", out);
      clk = 1;
      #1 clk = 0;
    end
  end
endmodule
'''


def run(*words, folder):
    done = subprocess.run(words, cwd=folder, capture_output=True, text=True)
    return done.stdout + done.stderr if done.returncode else '', done.stdout


def tried(library, folder, name, rule, cycles, dice):
    """What is wrong with one rule's circuit under the tools."""
    answer, circuit = library.call('circuit', rule, room=9789)
    if answer >> 63:
        return [f'citronhelm_circuit refuses with {answer & 255}']
    rows, _ = library.call('rows', rule)
    signals = int(re.search(rb'^signals=(\d+)$', rule, re.M)[1])
    for suffix, data in (('aag', circuit), ('aig', binary(circuit))):
        with open(os.path.join(folder, f'{name}.{suffix}'), 'wb') as f:
            f.write(data)
    faults = []
    fault, _ = run('yosys', '-q', '-p', f'read_aiger -module_name monitors -clk_name clk {name}.aag; write_verilog -noattr {name}.v', folder=folder)
    if fault:
        return [f'yosys does not read the file: {fault}']
    _, said = run('berkeley-abc', '-q', f'read_aiger {name}.aig; print_stats', folder=folder)
    counts = re.search(r'i/o *= *(\d+)/ *(\d+) *lat *= *(\d+)', said)
    if not counts or [int(n) for n in counts.groups()] != [signals + rows, 3 * rows, rows]:
        faults.append(f'berkeley-abc says {said!r}')
    given = [''.join(dice.choice('01') for _ in range(signals + rows)) for _ in range(cycles)]
    with open(os.path.join(folder, f'{name}.in'), 'w') as f:
        f.write(''.join(line + '\n' for line in given))
    with open(os.path.join(folder, f'{name}.bench.v'), 'w') as f:
        f.write(BENCH.format(
            name=name, last_input=signals + rows - 1, last_output=3 * rows - 1, last_cycle=cycles - 1,
            inputs=', '.join(f'in[{k}]' for k in range(signals + rows)), outputs=', '.join(f'out[{k}]' for k in range(3 * rows))))
    fault, _ = run('iverilog', '-o', f'{name}.vvp', f'{name}.bench.v', f'{name}.v', folder=folder)
    if fault:
        return faults + [f'Icarus Verilog does not compile it: {fault}']
    _, said = run('vvp', '-n', f'{name}.vvp', folder=folder)
    pendings = latches = b'0' * rows
    seen = said.split()
    for k, line in enumerate(given):
        inputs = line.encode()
        _, step = library.call('step', rule, pendings, inputs[signals:], inputs[:signals], room=384)
        _, cycle = library.call('simulate', circuit, inputs, latches, room=4 * rows)
        if len(seen) <= k or seen[k].encode() != step or cycle != step + step[2 * rows:]:
            return faults + [f'cycle {k}: step {step}, simulate {cycle}, Icarus Verilog {seen[k:k + 1]}']
        pendings, latches = step[2 * rows:], cycle[3 * rows:]
    return faults


def main():
    options = argparse.ArgumentParser(description=__doc__, formatter_class=argparse.RawDescriptionHelpFormatter)
    options.add_argument('--rules', type=int, default=300, help='how many random rules')
    options.add_argument('--cycles', type=int, default=50, help='cycles simulated of each')
    options.add_argument('--seed', type=int, default=1)
    asked = options.parse_args()
    with tempfile.TemporaryDirectory() as folder:
        library = Library(folder)
        rules = {}
        for path in sorted(glob.glob(os.path.join(HERE, 'examples', '*', 'rule.txt'))):
            with open(path, 'rb') as f:
                rule = f.read()
            if library.call('read_rule', rule)[0] == 0:
                rules[os.path.basename(os.path.dirname(path))] = rule
        examples = len(rules)
        dice = random.Random(asked.seed)
        rules.update((f'random{k}', random_rule(dice)) for k in range(asked.rules))
        with concurrent.futures.ThreadPoolExecutor(os.cpu_count()) as pool:
            jobs = [(name, rule, pool.submit(tried, library, folder, name, rule, asked.cycles, random.Random(f'{asked.seed} {name}')))
                    for name, rule in rules.items()]
            faulty = 0
            for name, rule, job in jobs:
                faults = job.result()
                faulty += bool(faults)
                for fault in faults:
                    print(f'{name}: {fault}\n{rule.decode()}')
        sizes = sorted(library.call('rows', rule)[0] for rule in rules.values())
        print(f'{examples} examples and {asked.rules} random rules, {sizes[0]} to {sizes[-1]} rows in normal form, median {sizes[len(sizes) // 2]}; '
              f'{asked.cycles} cycles of each: {len(rules) - faulty} alike, {faulty} different')
        sys.exit(faulty > 0)


if __name__ == '__main__':
    main()
