"""Normal forms, plain and negated, their lengths and their bounds."""
from suite import ask, case, refusal, rows_of, rule, value

BEHIND = 7  # bytes lent behind the output
A = 'format=1\nsignals=2\nrows=5\nr1=nsig 1\nr2=sig 2\nr3=ever 2\nr4=or 1 3\nr5=always 4\n'


def length(service, name):
    """How much the service writes."""
    return int(value(ask(f'{service} {name} 4096'), 'written'))


def normal(name, rows, signals=2, by_hand=None):
    """The bound, and both normal forms with room behind them, and their lengths; the plain one may stand by hand."""
    name = rule(name, *rows, signals=signals)
    case('bound', name, ends=f'bound={29 + 44 * len(rows)}\n')
    for service, text in (('normal', by_hand), ('negated', None)):
        size = length(service, name)
        case(f'{service}_length', name, ends=f'length={size}\n')
        case(service, name, size + BEHIND, ends=text and text + '.' * BEHIND + '\n')
    return name


def at_length(name):
    """With as many bytes as the length says, and with one less, which is refused and leaves the buffer alone."""
    for service in ('normal', 'negated'):
        size = int(value(ask(f'{service}_length {name}'), 'length'))
        case(service, name, size, right=lambda text, size=size: text.startswith(f'written={size}\n'))
        case(service, name, size - 1, ends=f'{refusal(10, 0, 0)}{"." * (size - 1)}\n')


# 01's own
a = normal('a', ['sig 1', 'not 1', 'sig 2', 'ever 3', 'or 2 4', 'always 5'], by_hand=A)
case('normal_length', a, ends='length=77\n')
case('negated_length', a, ends='length=78\n')
one = normal('one-row', ['true'], 1)
case('normal_length', one, ends='length=34\n')
case('negated_length', one, ends='length=35\n')
normal('not-at-the-root', ['sig 2', 'not 1'])
normal('twice-negated', ['sig 2', 'not 1', 'not 2'])
normal('negations-only', ['sig 32'] + [f'not {k}' for k in range(1, 64)], 32)
normal('partners', ['true', 'false', 'sig 1', 'nsig 2', 'not 1', 'and 5 2', 'or 6 3', 'next 7', 'always 8', 'ever 9', 'weak 4 10',
                    'until 11 2', 'release 12 12', 'srelease 1 13'])
normal('shared-under-one-sign', ['sig 1', 'next 1', 'and 2 2', 'until 3 2'])
normal('shared-under-both-signs', ['sig 1', 'next 1', 'not 2', 'weak 3 2'])
normal('two-equal-rows', ['sig 1', 'sig 1', 'and 1 2'])
normal('unreached', ['sig 1', 'sig 2', 'always 2', 'next 1'])
# the most rows that 64 rows can reach: 62 rows under both signs, one `not` with no row, the root under one sign
most = normal('most-rows', ['sig 1'] + [f'next {k}' for k in range(1, 62)] + ['not 62', 'release 62 63'], 32)
assert rows_of(most) == rows_of(most, 'negated') == 125
# the longest lines: the longest word with two numbers of three digits
longest = normal('longest-lines', ['sig 1'] + [f'srelease {k} {k}' for k in range(1, 62)] + ['not 62', 'srelease 62 63'], 32)
# 9, 10, 99 and 100 rows, where a row's number gets a digit more: rows under both signs, one `not`, and one or two rows under one sign
edges = {}
for below, above in ((4, []), (4, ['always 6']), (49, []), (49, ['always 51'])):
    count = 2 * below + 1 + len(above)
    rows = ['sig 1', *(f'next {k}' for k in range(1, below)), f'not {below}', f'release {below} {below + 1}', *above]
    edges[count] = normal(f'normal-form-of-{count}-rows', rows, 1)
    assert rows_of(edges[count]) == rows_of(edges[count], 'negated') == count
bad = rule('operand-out-of-range', 'sig 1', 'not 2')
for words in (('bound', bad), ('normal', bad, 100), ('negated', bad, 100)):
    case(*words, ends=refusal(5, 1, 5))
for name, *refused in ((bad, 5, 1, 5), ('rule-missing', 2, 1, 1), ('rule-format-2', 3, 1, 1), ('rule-65-nots', 4, 1, 3),
                       ('rule-65537-bytes', 1, 1, 0)):
    for service in ('normal_length', 'negated_length'):
        case(service, name, ends=refusal(*refused))
for name in (a, one, *edges.values(), most, longest):
    at_length(name)
