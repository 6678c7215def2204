"""Padded numbers (02, request 2): those in values may have leading zeros, five digits in all at most, and those in keys may not. What is
expected of a file read alone stands here by hand; of the other services, that they print what they print for the files without padding."""
import re

from normal_cases import BEHIND, length
from reading_cases import CHAIN, WORDS, read
from suite import ask, case, file, files, refusal, rule_text, sheet, sheet_text, take, take_text

# the digits of `c` and `z` lines, which stand behind a digit and `=`, are no numbers
NUMBER = re.compile(r'(?<=[a-z]=)\d+|(?<= )\d+')
RULE = rule_text(['sig 1', 'not 1', 'until 2 1'], signals=1)
TAKE = take_text(['101', '010'], 0)
SHEET = sheet_text(['101', '011'])


def padded(text, width=5):
    """The file with each number of its values padded to so many digits."""
    return NUMBER.sub(lambda number: number[0].zfill(width), text)


def one_padded(text, number, width):
    """The file with one number padded."""
    return text[:number.start()] + number[0].zfill(width) + text[number.end():]


# every number of a file: all together in two to five digits, each for itself in five, and in six, which none may have
for at_file, (kind, text) in enumerate((('rule', RULE), ('take', TAKE), ('sheet', SHEET)), 1):
    for width in range(2, 6):
        read(f'{kind}-padded-to-{width}', padded(text, width))
    for place, number in enumerate(NUMBER.finditer(text), 1):
        line = 1 + text.count('\n', 0, number.start())
        read(f'{kind}-number-{place}-five-digits', one_padded(text, number, 5))
        read(f'{kind}-number-{place}-six-digits', one_padded(text, number, 6), 2, at_file, line)
read('rule-words-padded', padded(rule_text(WORDS)))
read('rule-64-nots-padded', padded(rule_text(CHAIN)))
read('take-256-cycles-padded', padded(take_text(['1'] * 256, loop=255)))
read('sheet-128-rows-padded', padded(sheet_text(['1'] * 128)))

# the range is looked at behind the form, whatever the padding; zeros, numbers that are too large, and zero in six digits
for old, new, *refused in (
        ('format=1', 'format=00000', 3, 1, 1),
        ('format=1', 'format=00002', 3, 1, 1),
        ('format=1', 'format=000000', 2, 1, 1),
        ('signals=1', 'signals=00000', 4, 1, 2),
        ('signals=1', 'signals=00033', 4, 1, 2),
        ('rows=3', 'rows=00000', 4, 1, 3),
        ('rows=3', 'rows=00065', 4, 1, 3),
        ('rows=3', 'rows=000000', 2, 1, 3),
        ('sig 1', 'sig 00000', 5, 1, 4),
        ('sig 1', 'sig 00002', 5, 1, 4),
        ('not 1', 'not 00002', 5, 1, 5),
        ('until 2 1', 'and 00000 1', 5, 1, 6),
        ('until 2 1', 'and 1 00000', 5, 1, 6),
        ('until 2 1', 'and 00003 00001', 5, 1, 6),
        ('until 2 1', 'and 00000 000001', 2, 1, 6)):
    read(f'rule-{new.replace("=", "-").replace(" ", "-")}', RULE.replace(old, new), *refused)
for old, new, *refused in (
        ('format=1', 'format=00000', 3, 2, 1),
        ('signals=3', 'signals=00000', 4, 2, 2),
        ('signals=3', 'signals=00033', 4, 2, 2),
        ('cycles=2', 'cycles=00000', 4, 2, 3),
        ('cycles=2', 'cycles=00257', 4, 2, 3),
        ('loop=0', 'loop=00001'),
        ('loop=0', 'loop=00002', 6, 2, 4),
        ('loop=0', 'loop=00005', 6, 2, 4),
        ('loop=0', 'loop=0none', 2, 2, 4)):
    read(f'take-{new.replace("=", "-")}', TAKE.replace(old, new), *refused)
for old, new, *refused in (
        ('format=1', 'format=00000', 3, 3, 1),
        ('rows=2', 'rows=00000', 4, 3, 2),
        ('rows=2', 'rows=00129', 4, 3, 2),
        ('cycles=3', 'cycles=00000', 4, 3, 3),
        ('cycles=3', 'cycles=00257', 4, 3, 3)):
    read(f'sheet-{new.replace("=", "-")}', SHEET.replace(old, new), *refused)

# keys, beside values that are padded and such that are not; digits that are no number
for key in ('r01', 'r00001'):
    read(f'rule-key-{key}', RULE.replace('r1', key), 2, 1, 4)
    read(f'rule-key-{key}-padded', padded(RULE).replace('r1', key), 2, 1, 4)
for key, line in (('c00', 5), ('c00000', 5), ('c01', 6)):
    read(f'take-key-{key}', padded(TAKE).replace(f'c{int(key[1:])}=', f'{key}='), 2, 2, line)
for key, line in (('z01', 4), ('z00002', 5)):
    read(f'sheet-key-{key}', padded(SHEET).replace(f'z{int(key[1:])}=', f'{key}='), 2, 3, line)
read('take-digits-padded', TAKE.replace('c0=101', 'c0=00101'), 2, 2, 5)
read('sheet-digits-padded', SHEET.replace('z1=101', 'z1=00101'), 2, 3, 4)


def twin(name):
    """The file with its numbers padded to five digits."""
    return file(f'{name}-padded', padded(files[name].decode()))


def as_unpadded(service, names, *words):
    """A call with padded files: what is printed for the files as they are, and none of it is padded."""
    expected = ask(' '.join(map(str, [service, *names, *words])))
    case(service, *map(twin, names), *words, right=lambda text: text == expected)


a, request, looped, opened = 'rule-a', 'rule-next-pull', take('10 01', 0), take('10 00')
for name in (a, 'rule-longest-lines'):
    as_unpadded('bound', [name])
    for service in ('normal', 'negated'):
        as_unpadded(f'{service}_length', [name])
        as_unpadded(service, [name], length(service, name) + BEHIND)
for service in ('judge', 'sheet_length', 'sheet'):
    for pair in ([a, looped], [request, opened], [a, take('10 10', 1)], ['rule-until', take('10 01')], ['rule-next-one', looped]):
        as_unpadded(service, pair)
for names in ([a, looped, 'sheet-a'], [a, looped, sheet('01 01 00 11 11')], [a, looped, sheet('01 00 11 11 11')], [a, opened, 'sheet-a']):
    as_unpadded('check_sheet', names)
as_unpadded('step', [a], '00110', '01111', '01', 15)
as_unpadded('run', [request], '10', '?', '00', '?', '01', '?')

# a padded key behind padded values, where files go together; of several faults the first
case('judge', 'rule-key-r01-padded', twin(looped), ends=refusal(2, 1, 4))
case('judge', twin(a), 'take-key-c00', ends=refusal(2, 2, 5))
case('check_sheet', twin(a), twin(looped), 'sheet-key-z01', ends=refusal(2, 3, 4))
