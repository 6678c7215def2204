"""Files and cases of crates/try_services, gathered by the modules *_cases.py; make_cases.py writes them.

A case is a line: the name of a service and its inputs, parted by spaces. What must be printed of it is what the second implementation
says (rust/second, program `expected`). Where 01 gives an answer it stands by hand in those modules, and so do the answers that a case
is there for, and all refusals: the second implementation is held to these."""
import functools
import os
import subprocess
import tempfile

RUST = os.path.join(os.path.dirname(os.path.abspath(__file__)), '..', 'rust')
SECOND = os.path.join(RUST, '..', 'target', 'rust', 'release', 'expected')
folder = tempfile.TemporaryDirectory()

files = {}  # by name: bytes
tables = {}  # by name, of files that are right: rows and signals, cycles and loop, or the rows of a sheet
cases = {}  # by line: whether what must be printed is what stands by hand


def build():
    subprocess.run('cargo build --quiet --offline --locked --release -p second --bin expected'.split(), cwd=RUST, check=True)


def ask_all(lines):
    return subprocess.run([SECOND, *lines], cwd=folder.name, capture_output=True, check=True, text=True).stdout


@functools.lru_cache(None)
def ask(line):
    """What must be printed of a case, without the case."""
    return ask_all([line])[len(line) + 1:]


def file(name, text):
    data = text if isinstance(text, bytes) else text.encode()
    assert files.get(name, data) == data, name
    if name not in files:
        files[name] = data
        with open(os.path.join(folder.name, name), 'wb') as f:
            f.write(data)
    return name


def rule_text(rows, signals=2, count=None):
    lines = [f'r{i}={r}\n' for i, r in enumerate(rows, 1)]
    return f'format=1\nsignals={signals}\nrows={len(rows) if count is None else count}\n' + ''.join(lines)


def take_text(cycles, loop='none', signals=None, count=None):
    signals, count = signals or len(cycles[0]), len(cycles) if count is None else count
    lines = [f'c{i}={c}\n' for i, c in enumerate(cycles)]
    return f'format=1\nsignals={signals}\ncycles={count}\nloop={loop}\n' + ''.join(lines)


def sheet_text(rows, cycles=None, count=None):
    lines = [f'z{k}={z}\n' for k, z in enumerate(rows, 1)]
    return f'format=1\nrows={count or len(rows)}\ncycles={cycles or len(rows[0])}\n' + ''.join(lines)


def circuit_text(*lines):
    return ''.join(f'{line}\n' for line in lines)


def rule(name, *rows, signals=2):
    name = 'rule-' + name
    tables[name] = rows, signals
    return file(name, rule_text(rows, signals))


def take(cycles, loop=None, name=None):
    """A take; its cycles stand side by side."""
    cycles = cycles.split() if isinstance(cycles, str) else cycles
    end = 'open' if loop is None else f'loop-{loop}'
    name = f'take-{name}' if name else f'take-{"-".join(cycles)}-{end}'
    tables[name] = cycles, loop
    return file(name, take_text(cycles, 'none' if loop is None else loop))


def sheet(rows, name=None):
    """A sheet; its rows stand side by side."""
    rows = rows.split() if isinstance(rows, str) else list(rows)
    name = f'sheet-{name or "-".join(rows)}'
    tables[name] = rows
    return file(name, sheet_text(rows))


def case(*words, ends='', right=lambda text: True):
    """A case; how its print-out ends, where that stands by hand, or what else must be right of it."""
    line = ' '.join(map(str, words))
    ruled = cases.get(line, lambda text: True)
    cases[line] = lambda text: ruled(text) and text.endswith(ends or '') and right(text)


def refusal(number, at_file, line):
    return f'refused={number}\nfile={at_file}\nline={line}\n'


def value(text, key):
    return next(line[len(key) + 1:] for line in text.splitlines() if line.startswith(key + '='))


def rows_of(rule_name, service='normal'):
    """How many rows the normal form has."""
    return int(value(ask(f'{service} {rule_name} 4096'), 'rows'))


def verdict(rule_name, take_name):
    return value(ask(f'judge {rule_name} {take_name}'), 'verdict')


def true_rows(rule_name, take_name):
    """A 1 where a row of the normal form is true, strongly on an open take: the sheet made, or, where there is none, that of the rule or
    true, which has two rows more."""
    text = ask(f'sheet {rule_name} {take_name}')
    more = text == 'none\n'
    if more:
        rows, signals = tables[rule_name]
        other = file(f'or-true-{rule_name}', rule_text([*rows, 'true', f'or {len(rows)} {len(rows) + 1}'], signals))
        text = ask(f'sheet {other} {take_name}')
    rows = [line.split('=')[1] for line in text.splitlines()[3:]]
    return rows[:-2] if more else rows
