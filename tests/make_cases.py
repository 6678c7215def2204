#!/usr/bin/env python3
"""Makes the cases of crates/try_services: the files in data/, the cases in args, and in stdout what must be printed of them (suite.py).

    tests/make_cases.py            writes them
    tests/make_cases.py --check    writes nothing; what is there must be what it would write"""
import collections
import os
import sys

import suite

HERE = os.path.join(os.path.dirname(os.path.abspath(__file__)), '..', 'crates', 'try_services')


def made():
    """All cases and their files, by path, and what is printed."""
    suite.build()
    for module in ('reading', 'normal', 'judge', 'sheet', 'step', 'circuit', 'watch', 'padding', 'written_out'):
        __import__(f'{module}_cases')
    printed, rest = {}, suite.ask_all(suite.cases)
    lines = list(suite.cases)
    for line, after in zip(lines, [*lines[1:], None]):
        assert rest.startswith(f'{line}\n'), line
        end = len(rest) if after is None else rest.index(f'\n{after}\n', len(line)) + 1
        printed[line], rest = rest[len(line) + 1:end], rest[end:]
        assert suite.cases[line](printed[line]), f'{line}: by hand it is not\n{printed[line]}'
    names = sorted({word for line in lines for word in line.split(' ')} & set(suite.files))
    paths = {os.path.join('data', name): suite.files[name] for name in names}
    paths['args'] = ''.join(f'{line}\n' for line in lines).encode()
    paths['stdout'] = ''.join(f'{line}\n{text}' for line, text in printed.items()).encode()
    return paths, printed


def there():
    found = {}
    for path in ['args', 'stdout', *(os.path.join('data', name) for name in os.listdir(os.path.join(HERE, 'data')))]:
        with open(os.path.join(HERE, path), 'rb') as f:
            found[path] = f.read()
    return found


def write(paths):
    os.makedirs(os.path.join(HERE, 'data'), exist_ok=True)
    for name in os.listdir(os.path.join(HERE, 'data')):
        os.remove(os.path.join(HERE, 'data', name))
    for path, content in paths.items():
        with open(os.path.join(HERE, path), 'wb') as f:
            f.write(content)


def main():
    if sys.argv[1:] not in ([], ['--check']):
        sys.exit(__doc__)
    paths, printed = made()
    if sys.argv[1:]:
        old = there()
        different = sorted(path for path in {**paths, **old} if paths.get(path) != old.get(path))
        if different:
            sys.exit(f'tests/make_cases.py: crates/try_services has something else: {" ".join(different[:20])}')
    else:
        write(paths)
    by_service = collections.Counter(line.split(' ')[0] for line in printed)
    print(f'tests/make_cases.py: {len(printed)} cases of {len(paths) - 2} files:', ', '.join(f'{n} {s}' for s, n in by_service.items()))


main()
