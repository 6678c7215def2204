"""Verdicts on rules and takes. Where 01 gives a verdict it stands here by hand, and so do those that a case is there for, and all
refusals (01, "Why a file is turned back")."""
from suite import case, file, refusal, rows_of, rule, rule_text, tables, take, take_text

pairs = []  # the pairs judged, and whether they are refused


def judged(rule_name, take_name, by_hand=None):
    assert tables[rule_name][1] == len(tables[take_name][0][0])
    pairs.append((rule_name, take_name, False))
    case('judge', rule_name, take_name, ends=by_hand and f'verdict={by_hand}\n')


def refused(rule_name, take_name, *by_hand):
    pairs.append((rule_name, take_name, True))
    case('judge', rule_name, take_name, ends=refusal(*by_hand))


# 01, "Rules and takes to try"
A = ['sig 1', 'not 1', 'sig 2', 'ever 3', 'or 2 4', 'always 5']
a = rule('a', *A)
judged(a, take('10 01', 0), 'holds')
judged(a, take('10 10', 1), 'breaks')
judged(a, take('10'), 'open')
request = rule('next-pull', 'sig 1', 'not 1', 'sig 2', 'next 3', 'or 2 4', 'always 5')
judged(request, take('10 00'), 'broken')
judged(request, take('10'), 'open')
until = rule('until', 'sig 1', 'sig 2', 'until 1 2')
weak = rule('weak', 'sig 1', 'sig 2', 'weak 1 2')
judged(until, take('10 01'), 'kept')
judged(until, take('10 00'), 'broken')
judged(until, take('10 10'), 'open')
judged(until, take('10', 0), 'breaks')
judged(weak, take('10', 0), 'holds')
judged(rule('always-true', 'true', 'always 1', signals=1), take('0'), 'open')
following = rule('next-one', 'sig 1', 'next 1', signals=1)
judged(following, take('1', 0), 'holds')
judged(following, take('1'), 'open')
judged(rule('row-5-operand-4', *['sig 1'] * 4, 'not 4'), take('10'), 'broken')
refused(file('rule-row-5-operand-5', rule_text(['sig 1'] * 4 + ['not 5'])), take('10'), 5, 1, 8)

# each kind and its negation, on small takes
SMALL = [take(c) for c in ('00', '10', '01', '11', '10 10', '10 11', '01 01', '01 11', '01 10', '00 11', '11 00',
                           '10 10 01', '01 01 10')]
SMALL += [take(c, loop) for c, loop in (
    ('00', 0), ('10', 0), ('01', 0), ('11', 0), ('10 01', 0), ('10 01', 1), ('01 10', 1), ('11 01 01', 1), ('11 10 10', 2),
    ('10 10 00', 1), ('01 01 11', 0), ('01 01 00', 2))]
TEMPORAL = ['next', 'always', 'ever', 'weak', 'until', 'release', 'srelease']
for kind in ('true', 'false', 'sig 1', 'nsig 1', 'not 1', 'next 1', 'always 1', 'ever 1', 'and 1 2', 'or 1 2', 'weak 1 2',
             'until 1 2', 'release 1 2', 'srelease 1 2'):
    rows, word = ['sig 1', 'sig 2', kind], kind.split()[0]
    for r in (rule(word, *rows), rule('not-' + word, *rows, 'not 3')):
        for t in SMALL if word in TEMPORAL else SMALL[:4] + SMALL[13:17]:
            if (r, t, False) not in pairs:
                judged(r, t)

# rows that wait for each other round after round of a loop (02, request 5). Start values set once are wrong of the first, two rounds
# whatever the rule of the second; of the third they give the verdict but another sheet. 63 rows over each other need up to 64 rounds.
def chain(*words):
    return [f'{word} {k}' for k, word in enumerate(words, 1)]


for name, rows, cycles, loop, verdict in (
        ('always-ever', ['sig 1', *chain('ever', 'always')], '1 0', 0, 'holds'),
        ('next-next-next', ['sig 1', *chain('next', 'next', 'next')], '1', 0, 'holds'),
        ('ever-until', ['sig 1', 'ever 1', 'until 2 1'], '0 1 0', 0, 'holds'),
        ('always-ever', ['sig 1', *chain('ever', 'always')], '1 0', 1, 'breaks'),
        ('ever-always', ['sig 1', *chain('always', 'ever')], '0 1', 1, 'holds'),
        ('ever-always', ['sig 1', *chain('always', 'ever')], '1 0', 0, 'breaks'),
        ('next-next-next', ['sig 1', *chain('next', 'next', 'next')], '0 1', 1, 'holds'),
        ('next-next-next', ['sig 1', *chain('next', 'next', 'next')], '1 1 0', 1, 'holds'),
        ('ever-63', ['sig 1', *chain(*['ever'] * 63)], '1 0', 0, 'holds'),
        ('ever-63', ['sig 1', *chain(*['ever'] * 63)], '1 0', 1, 'holds'),
        ('ever-63', ['sig 1', *chain(*['ever'] * 63)], '0 0', 1, 'breaks'),
        ('always-ever-63', ['sig 1', *chain(*(['ever', 'always'] * 32)[:63])], '0 1 0', 1, 'holds'),
        ('always-ever-63', ['sig 1', *chain(*(['ever', 'always'] * 32)[:63])], '0 1 0', 2, 'breaks'),
        ('next-63', ['sig 1', *chain(*['next'] * 63)], '0 1', 1, 'holds'),
        ('next-63', ['sig 1', *chain(*['next'] * 63)], '1 0', 0, 'breaks'),
        ('releases', ['sig 1', 'ever 1', 'release 1 2', 'srelease 1 3', 'weak 4 1'], '1 0', 0, 'holds')):
    judged(rule('round-' + name, *rows, signals=1), take(cycles, loop), verdict)

# a loop checked once: the row is asked at the last cycle, and what decides stands at the loop's first, which comes next
judged_late = [('always', 'always 1'), ('ever', 'ever 2'), ('until', 'until 1 2'), ('weak', 'weak 1 2'), ('release', 'release 1 2'),
               ('srelease', 'srelease 1 2'), ('next', 'next 2')]
LATE = [take(c, loop) for c, loop in (
    ('01 00 10', 1), ('00 01 10', 1), ('01 00 01', 1), ('00 11 01', 1), ('00 10 10', 1), ('11 10 10', 1), ('00 01 01', 1),
    ('10 01 00', 0), ('01 00 00', 2), ('11 01 10', 2))]
for word, row in judged_late:
    for sign in (['next 3', 'next 4'], ['not 3', 'next 4', 'next 5']):
        r = rule(f'late-{"not-" if len(sign) > 2 else ""}{word}', 'sig 1', 'sig 2', row, *sign)
        for t in LATE:
            judged(r, t)

# what the stem showed and the loop does not
again = rule('again-and-again', 'sig 2', 'ever 1', 'always 2')
settles = rule('settles', 'sig 2', 'always 1', 'ever 2')
judged(again, take('01 01 00', 2), 'breaks')
judged(again, take('00 01 00', 1), 'holds')
judged(again, take('01 01'), 'open')
judged(settles, take('00 00 01', 2), 'holds')
judged(settles, take('01 01 00', 0), 'breaks')
judged(settles, take('01 01'), 'open')
for t in (take('10 00 00', 1), take('01 00 10', 1), take('00 01 10', 1), take('10 01 00', 1), take('10 10'), take('01')):
    judged(a, t)

# weak is not kept because nothing failed, and its partner is srelease
silent = rule('weak-of-negated', 'nsig 1', 'sig 2', 'weak 1 2')
judged(silent, take('00 00 00'), 'open')
judged(silent, take('00 00 00', 0), 'holds')
judged(silent, take('00 01 10'), 'kept')
judged(silent, take('00 10 01'), 'broken')
judged(weak, take('10 10 10'), 'open')
judged(rule('not-weak', 'sig 1', 'sig 2', 'weak 1 2', 'not 3'), take('10 10 10'), 'open')
judged(rule('not-weak', 'sig 1', 'sig 2', 'weak 1 2', 'not 3'), take('10 10 10', 1), 'breaks')
judged(rule('weak-or-weak', 'sig 1', 'sig 2', 'weak 1 2', 'weak 2 1', 'and 3 4'), take('11 10', 0))

# open takes on which every continuation agrees and that still are not informative, and others that are
EITHER = rule('either', 'sig 1', 'not 1', 'or 1 2')
judged(EITHER, take('00'), 'kept')
judged(rule('not-either', 'sig 1', 'not 1', 'or 1 2', 'not 3'), take('10'), 'broken')
judged(rule('always-either', 'sig 1', 'not 1', 'or 1 2', 'always 3'), take('10'), 'open')
judged(rule('always-or-ever-not', 'sig 1', 'not 1', 'always 1', 'ever 2', 'or 3 4'), take('10 10'), 'open')
judged(rule('always-or-ever-not', 'sig 1', 'not 1', 'always 1', 'ever 2', 'or 3 4'), take('10 00'), 'kept')
judged(rule('ever-and-always-not', 'sig 1', 'not 1', 'ever 1', 'always 2', 'and 3 4'), take('00 00'), 'open')
judged(rule('next-true', 'true', 'next 1'), take('10'), 'open')
judged(rule('next-true', 'true', 'next 1'), take('10 00'), 'kept')
judged(rule('ever-true', 'true', 'ever 1'), take('10'), 'kept')
judged(rule('until-true', 'false', 'true', 'until 1 2'), take('10'), 'kept')
judged(rule('release-false', 'true', 'false', 'release 1 2'), take('10'), 'broken')
thrice = rule('next-next-next', 'sig 2', 'next 1', 'next 2', 'next 3')
for t in (take('01 01 01'), take('01 01 01 01'), take('01 01 01 00'), take('01 00 01', 1), take('01 00 01', 2),
          take('00 01 00', 0)):
    judged(thrice, t)

# rows: shared, under both signs, not reached, nested negations
NESTED = [
    rule('shared-both-signs', 'sig 1', 'sig 2', 'until 1 2', 'not 3', 'weak 4 3'),
    rule('not-reached', 'sig 1', 'sig 2', 'always 2', 'ever 1', 'next 1'),
    rule('not-of-not', 'sig 1', 'sig 2', 'until 1 2', 'not 3', 'not 4', 'always 5'),
    rule('until-of-until', 'sig 1', 'sig 2', 'until 1 2', 'until 2 1', 'until 3 4'),
    rule('release-of-weak', 'sig 1', 'nsig 2', 'weak 1 2', 'release 3 1', 'not 4', 'ever 5'),
    rule('weak-of-srelease', 'sig 1', 'sig 2', 'srelease 2 1', 'not 3', 'weak 4 2', 'always 5'),
    rule('equal-rows', 'sig 1', 'sig 1', 'always 1', 'ever 2', 'and 3 4'),
    rule('all-kinds', 'true', 'false', 'sig 1', 'nsig 2', 'or 3 2', 'and 4 1', 'until 5 6', 'not 7', 'weak 8 3', 'srelease 3 9',
         'not 10', 'release 11 7', 'next 12', 'ever 13', 'always 14'),
]
MIXED = [take(c, loop) for c, loop in (
    ('10 01 11 00 10 10', None), ('10 10 11 10 01 00', None), ('01 00 10 11', None), ('10 01 11 00 10 10', 2),
    ('10 10 11 10 01 00', 0), ('01 00 10 11', 3), ('11 10 10 11', 1), ('00 01 10', 2))]
for r in NESTED:
    for t in MIXED:
        judged(r, t)

# limits: 64 rows, 256 cycles, 32 signals, loop at 0 and at the last cycle
chain = rule('64-rows', 'sig 1', *[f'next {k}' for k in range(1, 64)], signals=1)
negations = rule('64-rows-negations', 'sig 1', *[f'not {k}' for k in range(1, 64)], signals=1)
most = rule('125-rows', 'sig 1', *[f'next {k}' for k in range(1, 62)], 'not 62', 'release 62 63', signals=1)
wide = rule('32-signals', *[f'sig {s}' for s in range(1, 33)], 'ever 1', *[f'until {s} {s + 31}' for s in range(2, 32)],
            'always 63', signals=32)
assert all(len(tables[r][0]) == 64 for r in (chain, negations, most, wide)) and rows_of(most) == 125
refused(file('rule-65-rows', rule_text(['sig 1'] + [f'next {k}' for k in range(1, 65)], 1)), take('1'), 4, 1, 3)


def one(n, at, loop=None):
    """A take of one signal that is 1 at one cycle only."""
    return take(['01'[i == at] for i in range(n)], loop, f'{n}-one-at-{at}-{"open" if loop is None else f"loop-{loop}"}')


ONES = [one(256, 63), one(256, 255, 255), one(256, 0, 0), one(64, 63), one(63, 1, 1), one(63, 62, 0), one(65, 63, 64),
        one(64, 63, 63)]
for r in (chain, negations, most):
    for t in ONES:
        judged(r, t)
judged(chain, one(63, 62), 'open')
judged(chain, one(64, 62), 'broken')
refused(following, file('take-257-cycles', take_text(['1'] * 257, 0)), 4, 2, 3)
judged(following, one(1, 0, 0), 'holds')


def two(n, keep_but, goal_at, loop=None):
    """A take of two signals: the first is 1 but at these cycles, the second 1 at those."""
    cycles = [f'{int(i not in keep_but)}{int(i in goal_at)}' for i in range(n)]
    parts = ['-'.join(map(str, p)) or 'none' for p in (keep_but, goal_at)]
    return take(cycles, loop, f'{n}-gap-{parts[0]}-goal-{parts[1]}-{"open" if loop is None else f"loop-{loop}"}')


# long stretches, with what decides on both sides of each multiple of 64
LONG = [rule('until', 'sig 1', 'sig 2', 'until 1 2'), rule('not-weak', 'sig 1', 'sig 2', 'weak 1 2', 'not 3'),
        rule('release-turned', 'sig 1', 'sig 2', 'release 2 1'), rule('always-until', 'sig 1', 'sig 2', 'until 1 2', 'always 3'),
        rule('not-ever-weak', 'sig 1', 'nsig 1', 'sig 2', 'weak 1 3', 'and 4 2', 'ever 5', 'not 6'), again, settles]
TAKES = [two(256, [], [255]), two(256, [128], [129]), two(256, [], []), two(256, [], [], 0), two(256, [], [], 255),
         two(256, [255], [64], 63), two(200, [], [65], 65), two(200, [65], [], 64), two(192, [191], [191]),
         two(193, [192], [0, 64, 128, 192], 128),
         two(129, [1], [0], 128), two(128, [], [0], 127), two(65, [64], [64], 1)]
for r in LONG:
    for t in TAKES:
        judged(r, t)
FULL = ['{:032b}'.format((i * 2654435761 + 97) % 2 ** 32) for i in range(256)]
for t in (take(FULL, None, '32-signals-open'), take(FULL, 100, '32-signals-loop-100')):
    judged(wide, t)
judged(rule('signal-32', 'sig 32', 'always 1', 'not 2', signals=32), take(['1' * 32, '1' * 31 + '0'], None, 'last-of-32'), 'kept')

# refusals, the rule's
good, fair = rule_text(A), take_text(['10', '01'], 0)
FAIR = take('10 01', 0)
for name, text, number, line in (
        ('empty', '', 2, 1),
        ('no-line-feed', good[:-1], 2, 9),
        ('row-absent', rule_text(A[:5], count=6), 2, 9),
        ('row-surplus', good + 'r7=not 6\n', 2, 10),
        ('line-feed-surplus', good + '\n', 2, 10),
        ('carriage-returns', good.replace('\n', '\r\n'), 2, 1),
        ('key', good.replace('r3=', 'r03='), 2, 6),
        ('word', good.replace('ever', 'eventually'), 2, 7),
        ('two-spaces', good.replace('or 2 4', 'or  2 4'), 2, 8),
        ('six-digits', good.replace('signals=2', 'signals=000002'), 2, 2),
        ('format-2', good.replace('format=1', 'format=2'), 3, 1),
        ('0-signals', good.replace('signals=2', 'signals=0'), 4, 2),
        ('33-signals', good.replace('signals=2', 'signals=33'), 4, 2),
        ('0-rows', good.replace('rows=6', 'rows=0'), 4, 3),
        ('signal-0', good.replace('sig 1', 'sig 0'), 5, 4),
        ('signal-3', good.replace('sig 2', 'sig 3'), 5, 6),
        ('operand-0', good.replace('or 2 4', 'or 0 4'), 5, 8),
        ('operand-of-itself', good.replace('or 2 4', 'or 2 5'), 5, 8),
        ('first-fault', good.replace('not 1', 'not 2').replace('ever', 'Ever'), 5, 5),
        ('65536-bytes', good + '\n' * (65536 - len(good)), 2, 10)):
    refused(file('rule-bad-' + name, text), FAIR, number, 1, line)

# the take's
for name, text, number, line in (
        ('empty', '', 2, 1),
        ('no-line-feed', fair[:-1], 2, 6),
        ('cycle-absent', take_text(['10'], 0, count=2), 2, 6),
        ('cycle-surplus', fair + 'c2=00\n', 2, 7),
        ('byte-surplus', fair + ' ', 2, 7),
        ('cycles-from-1', fair.replace('c1=', 'c2=').replace('c0=', 'c1='), 2, 5),
        ('digits-few', fair.replace('c1=01', 'c1=0'), 2, 6),
        ('digits-many', fair.replace('c0=10', 'c0=100'), 2, 5),
        ('digit-2', fair.replace('c1=01', 'c1=02'), 2, 6),
        ('loop-word', fair.replace('loop=0', 'loop=None'), 2, 4),
        ('format-0', fair.replace('format=1', 'format=0'), 3, 1),
        ('0-signals', fair.replace('signals=2', 'signals=0'), 4, 2),
        ('33-signals', fair.replace('signals=2', 'signals=33'), 4, 2),
        ('0-cycles', fair.replace('cycles=2', 'cycles=0'), 4, 3),
        ('loop-2', fair.replace('loop=0', 'loop=2'), 6, 4),
        ('loop-99999', fair.replace('loop=0', 'loop=99999'), 6, 4),
        ('loop-before-digits', fair.replace('loop=0', 'loop=2').replace('c0=10', 'c0=12'), 6, 4),
        ('65536-bytes', fair + '\n' * (65536 - len(fair)), 2, 7)):
    refused(a, file('take-bad-' + name, text), number, 2, line)

# a byte too many, before any line is looked at; one file serves as rule and as take
LONGER = file('65537-bytes', good + '\n' * (65537 - len(good)))
refused(LONGER, FAIR, 1, 1, 0)
refused(a, LONGER, 1, 2, 0)

# the order: the rule before the take, both before 7; files that are not there; files that changed places
refused(a, take('1', 0), 7, 0, 0)
refused(following, take('10'), 7, 0, 0)
refused('rule-bad-word', take('1', 0), 2, 1, 7)
refused('rule-bad-word', 'take-bad-format-0', 2, 1, 7)
refused('rule-bad-word', LONGER, 2, 1, 7)
refused(LONGER, LONGER, 1, 1, 0)
refused(LONGER, 'take-bad-format-0', 1, 1, 0)
refused(following, 'take-bad-loop-2', 6, 2, 4)
refused('rule-missing', FAIR, 2, 1, 1)
refused(a, 'take-missing', 2, 2, 1)
refused('rule-missing', 'take-missing', 2, 1, 1)
refused('rule-bad-empty', 'take-bad-empty', 2, 1, 1)
refused(FAIR, a, 2, 1, 3)
refused(a, a, 2, 2, 3)
