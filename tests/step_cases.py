"""Calls of the step service: pendings, activators, signals, and how many bytes are lent. Refusals stand here by hand."""
import itertools

from sheet_cases import KINDS
from suite import ask, case, refusal, rows_of, tables, take, true_rows


def digits(bits):
    return ''.join('01'[b] for b in bits)


def answered(name, pendings, activators, signals, behind=0):
    """A call with a buffer that has so many bytes behind the output; what it writes, three parts."""
    n = rows_of(name)
    words = ['step', name, pendings, activators, signals, 3 * n + behind]
    case(*words, right=lambda text: text.startswith(f'written={3 * n}\n') and text.endswith('.' * behind + '\n'))
    return words


def refused(name, pendings, activators, signals, room, number, at_file=0, line=0, read=True):
    lent = '.' * room + '\n' if read else ''
    case('step', name, pendings, activators, signals, room, ends=refusal(number, at_file, line) + lent)


# each kind and its negation: every pending, activator and signal of a rule of one operator
for name in [f'rule-{sign}{word}' for word in KINDS for sign in ('', 'not-')]:
    n, signals = rows_of(name), tables[name][1]
    if n > 3:
        continue
    for bits in itertools.product((False, True), repeat=2 * n + signals):
        answered(name, digits(bits[:n]), digits(bits[n:2 * n]), digits(bits[2 * n:]))

# rule A along its take and sheet for three rounds: pendings are handed on, a refused call changes nothing and is no cycle
a, fair = 'rule-a', take('10 01', 0)
lines, pendings = true_rows(a, fair), '00000'
for i in range(6):
    activators, signals = digits(z[i % 2] == '1' for z in lines), tables[fair][0][i % 2]
    refused(a, pendings, activators, signals, 14, 10)
    refused(a, pendings, activators, signals + '0', 15, 7)
    _, out = ask(' '.join(map(str, answered(a, pendings, activators, signals, i)))).splitlines()
    failed, pendings = out[:5], out[10:15]
    assert failed == '00000'

# pendings are taken as given, also those that no earlier call could have written
answered(a, '11111', '00000', '00')
answered(a, '11111', '11111', '11', 40)

# refusals, each alone, and in 01's order where several have a reason
refused(a, '0000x', '11111', '10', 15, 2)
refused(a, '00000', '1111/', '10', 15, 2)
refused(a, '00000', '11111', '12', 15, 2)
refused(a, '00000', '11111', '1', 15, 7)
refused(a, '00000', '11111', '101', 15, 7)
refused(a, '0000', '11111', '10', 15, 9)
refused(a, '000000', '11111', '10', 15, 9)
refused(a, '00000', '1111', '10', 15, 9)
refused(a, '00000', '111111', '10', 15, 9)
refused(a, '000000', '111111', '10', 18, 9)
refused(a, '00000', '11111', '10', 14, 10)
refused(a, '00000', '11111', '10', 1, 10)
refused(a, '0000', '11111', '1x', 1, 2)
refused(a, '000x', '1111', '1', 1, 2)
refused(a, '0000', '1111', '1', 1, 7)
refused(a, '0000', '11111', '10', 1, 9)
refused(a, '00000', '11111', '2', 15, 2)

# the rule's own come first: the call is not made
refused('rule-bad-word', '0000x', '11111', '10', 15, 2, 1, 7, read=False)
refused('rule-bad-operand-of-itself', '00000', '11111', '1', 15, 5, 1, 8, read=False)
refused('rule-missing', '0', '1', '1', 3, 2, 1, 1, read=False)

# limits: 125 rows of a rule of 64, and 32 signals
most, many = 'rule-125-rows', 'rule-32-signals'
for pending, active in itertools.product('01', repeat=2):
    answered(most, pending * 125, active * 125, '0' * tables[most][1], 9)
    answered(most, (pending + active) * 62 + '1', (active + '1') * 62 + '0', '1' * tables[most][1])
size = rows_of(many)
answered(many, '0' * size, '1' * size, '10' * 16)
answered(many, '1' * size, '0' * size, '01' * 16)
refused(most, '0' * 125, '1' * 125, '0' * tables[most][1], 374, 10)
refused(most, '0' * 64, '1' * 64, '0' * tables[most][1], 375, 9)
