"""Sheets: `check_sheet` on a rule, a take and a sheet; `sheet` and `sheet_length` on a rule and a take; `all_sheets` on those with few rows
and cycles. Where 01 gives an answer it stands here by hand, and so do the answers that a case is there for, and all refusals."""
import itertools

import judge_cases as judge
from judge_cases import one
from normal_cases import edges
from suite import ask, case, cases, file, refusal, rows_of, rule, sheet, sheet_text, tables, take, true_rows, value, verdict

KINDS = ['true', 'false', 'sig', 'nsig', 'and', 'or', 'next', 'always', 'ever', 'weak', 'until', 'release', 'srelease']
triples = []  # the rules, takes and sheets that are checked and not refused


def text_of(found):
    return ''.join(f'{key}={value}\n' for key, value in zip(('finding', 'row', 'cycle'), found.split()))


def checked(rule_name, take_name, sheet_name, by_hand=None):
    cycles, rows = tables[take_name][0], tables[sheet_name]
    assert (tables[rule_name][1], rows_of(rule_name), len(cycles)) == (len(cycles[0]), len(rows), len(rows[0]))
    triples.append((rule_name, take_name, sheet_name))
    case('check_sheet', rule_name, take_name, sheet_name, ends=by_hand and text_of(by_hand))


def refused(rule_name, take_name, sheet_name, *by_hand):
    case('check_sheet', rule_name, take_name, sheet_name, ends=refusal(*by_hand))


def flipped(lines):
    for k, i in itertools.product(range(len(lines)), range(len(lines[0]))):
        yield lines[:k] + [lines[k][:i] + '10'[int(lines[k][i])] + lines[k][i + 1:]] + lines[k + 1:]


def with_root(lines):
    return lines[:-1] + ['1' + lines[-1][1:]]


# 01, "Rules and takes to try", and each digit of that sheet turned
a, again, until, following = 'rule-a', 'rule-again-and-again', 'rule-until', 'rule-next-one'
FAIR, GOOD = take('10 01', 0), sheet('01 01 11 11 11')
checked(a, FAIR, GOOD, 'passes')
checked(a, FAIR, sheet('01 01 00 11 11'), 'failed 4 0')
checked(a, FAIR, sheet('01 00 11 11 11'), 'starved 3')
assert true_rows(a, FAIR) == tables[GOOD]
for lines in flipped(tables[GOOD]):
    checked(a, FAIR, sheet(lines))
checked(a, FAIR, sheet('01 01 10 11 10'), 'passes')
checked(a, FAIR, sheet('00 00 00 00 01'), 'root')

# each kind and its negation: the made sheet and each digit of it turned, on the last looped and the last open take of two cycles
# that has one; where there is none, what is true and the root, and ones only
PAIRED = [t for t in judge.SMALL + [take(c, loop) for c, loop in (('00 11', 1), ('11 00', 1), ('11 00', 0), ('01 11', 1))]
          if len(tables[t][0]) == 2]
for name in [f'rule-{sign}{word}' for word in [*KINDS, 'not'] for sign in ('', 'not-')]:
    for looped in (True, False):
        fit = [t for t in PAIRED if (tables[t][1] is not None) == looped]
        good = [t for t in fit if verdict(name, t) in ('holds', 'kept')]
        bad = [t for t in fit if t not in good]
        for t in good[-1:]:
            lines = true_rows(name, t)
            checked(name, t, sheet(lines), 'passes')
            for other in flipped(lines):
                checked(name, t, sheet(other))
        for t in bad[:1] + bad[-1:]:
            lines = true_rows(name, t)
            checked(name, t, sheet(with_root(lines)))
            checked(name, t, sheet(['11'] * len(lines)))

# the root is not set in cycle 0, whatever else there is
checked(until, take('10 01', 0), sheet('10 01 01'), 'root')
checked(until, take('10 01'), sheet('00 00 00'), 'root')
checked(until, take('00 00'), sheet('11 11 01'), 'root')
checked(rule('true-alone', 'true', signals=1), take('0', 0), sheet('0'), 'root')
checked('rule-true-alone', take('0', 0), sheet('1'), 'passes')
checked('rule-true-alone', take('0'), sheet('1'), 'passes')

# the root is set in cycle 0 and elsewhere
checked(until, take('10 01', 0), sheet('10 01 11'), 'passes')
checked(until, take('10 01', 0), sheet('10 01 10'), 'passes')
checked(until, take('10 01 00', 2), sheet('100 010 100'), 'passes')
checked(until, take('10 01 00', 2), sheet('100 010 101'), 'failed 3 2')

# a loop checked once: nothing fails in the cycles of the take, and in the next round something does
for r, c, loop, s, found in (
        ('rule-next', '00 10 10', 0, '011 111', 'failed 2 3'),
        ('rule-next', '00 10 01', 0, '010 111', 'failed 2 2'),
        ('rule-next', '00 10 10 10', 1, '0111 1111', 'passes'),
        ('rule-next', '00 10 00 10', 2, '0101 1001', 'failed 2 4'),
        (rule('next-or', 'sig 1', 'next 1', 'true', 'or 2 3'), '00 00 10', 1, '001 001 111 100', 'failed 2 3'),
        (rule('always-or', 'sig 1', 'always 1', 'true', 'or 2 3'), '00 00 10', 1, '001 001 111 100', 'failed 2 3'),
        ('rule-always-or', '00 10 00 10 10', 1, '01011 00001 11111 10000', 'failed 2 6'),
        (rule('until-or', 'sig 1', 'sig 2', 'until 1 2', 'true', 'or 3 4'), '00 10 10 00 10', 1, '01101 00000 00001 11111 10000',
         'failed 3 7'),
        ('rule-until-or', '00 10 01 00 10', 1, '01001 00100 00001 11111 10000', 'passes'),
        (rule('weak-or', 'sig 1', 'sig 2', 'weak 1 2', 'true', 'or 3 4'), '00 10 10 00 10', 1, '01101 00000 00001 11111 10000',
         'failed 3 7'),
        ('rule-weak-or', '00 10 10 10 10', 1, '01111 00000 00001 11111 10000', 'passes'),
        (rule('release-or', 'sig 1', 'sig 2', 'release 1 2', 'true', 'or 3 4'), '00 01 01 00 01', 1,
         '00000 01101 00001 11111 10000', 'failed 3 7'),
        ('rule-release-or', '00 11 01 00 01', 1, '01000 01101 00001 11111 10000', 'passes'),
        (rule('srelease-or', 'sig 1', 'sig 2', 'srelease 1 2', 'true', 'or 3 4'), '00 01 01 00 01', 1,
         '00000 01101 00001 11111 10000', 'failed 3 7'),
        ('rule-srelease-or', '00 11 00 00 01', 1, '01000 01001 00001 11111 10000', 'passes')):
    checked(r, take(c, loop), sheet(s), found)

# of several failures the earliest cycle, then the lowest row
both = rule('always-and-next', 'sig 1', 'always 1', 'next 1', 'true', 'and 2 3', 'or 5 4')
for s, found in (('001 001 001 111 000 100', 'failed 2 3'), ('001 000 001 111 000 100', 'failed 3 3'),
                 ('001 001 011 111 000 100', 'failed 2 3'), ('000 011 010 111 000 100', 'failed 2 1'),
                 ('100 011 010 111 111 100', 'failed 1 0'), ('000 111 111 111 111 100', 'failed 2 0'),
                 ('001 001 001 111 001 100', 'failed 2 3'), ('000 000 001 110 000 110', 'failed 3 3')):
    checked(both, take('00 00 10', 1), sheet(s), found)
    checked(both, take('00 00 10'), sheet(s))

# an accept that is seen in the stem, or in the first round, and never again; one that comes once in each round
for r, c, loop, s, found in (
        (a, '10 01 10', 2, '010 010 111 111 111', 'starved 3'),
        (a, '10 01 10', 1, '010 010 111 111 111', 'passes'),
        (a, '10 01 00', 2, '011 010 110 111 100', 'passes'),
        (again, '01 01 00', 2, '110 111 111', 'starved 2'),
        (again, '00 01 00', 1, '010 111 111', 'passes'),
        (rule('ever-or', 'sig 1', 'ever 1', 'true', 'or 2 3'), '10 00 00 00', 1, '1000 0001 1111 1000', 'starved 2'),
        ('rule-ever-or', '10 00 00 00', 1, '1000 1000 1111 1000', 'passes'),
        ('rule-ever-or', '00 00 10 00', 1, '0010 1001 1111 1000', 'passes'),
        ('rule-until-or', '10 10 10 10', 1, '1111 0000 0001 1111 1000', 'starved 3'),
        ('rule-until-or', '01 10 10 10', 1, '0111 1000 1001 1111 1000', 'starved 3'),
        ('rule-until-or', '10 10 01 10', 1, '1101 0010 1001 1111 1000', 'passes'),
        ('rule-srelease-or', '11 01 01 01', 1, '1000 1111 1001 1111 1000', 'starved 3'),
        ('rule-srelease-or', '01 11 01 01', 1, '0100 1111 1001 1111 1000', 'passes'),
        ('rule-weak-or', '01 10 10 10', 1, '0111 1000 1001 1111 1000', 'passes'),
        ('rule-release-or', '11 01 01 01', 1, '1000 1111 1001 1111 1000', 'passes')):
    checked(r, take(c, loop), sheet(s), found)

# of several that starve or are pending the lowest row; a failure before them
many = rule('three-evers', 'sig 1', 'ever 1', 'sig 2', 'ever 3', 'until 3 1', 'and 2 4', 'and 6 5')
for c, loop, s, found in (
        ('00 00', 1, '00 11 00 11 00 11 10', 'failed 7 0'),
        ('01 01', 1, '00 11 11 11 11 11 10', 'starved 2'),
        ('01 01', 1, '00 00 11 11 11 00 10', 'failed 7 0'),
        ('00 01', 1, '00 11 00 11 00 10 10', 'failed 7 0'),
        ('11 01', 1, '10 10 10 11 11 10 10', 'failed 5 1'),
        ('11 01', 1, '10 10 11 11 11 10 10', 'starved 5'),
        ('11 01', 1, '10 10 11 11 10 10 10', 'passes'),
        ('11 00', 1, '10 11 10 11 10 10 10', 'starved 2'),
        ('11 00', 1, '10 10 10 11 10 10 10', 'starved 4'),
        ('11 00', None, '10 11 10 11 10 10 10', 'pending 2'),
        ('11 00', None, '10 10 10 11 10 10 10', 'pending 4'),
        ('11 01', None, '10 10 11 11 11 10 10', 'pending 5'),
        ('11 01', None, '10 10 10 10 11 10 10', 'failed 5 1'),
        ('11 01', None, '10 10 11 11 10 10 10', 'passes')):
    checked(many, take(c, loop), sheet(s), found)

# open takes: what is pending after the last cycle, and only there
for r, c, s, found in (
        ('rule-always-true', '0', '1 1', 'pending 2'),
        ('rule-always-true', '0', '0 1', 'failed 2 0'),
        (following, '1', '1 1', 'pending 2'),
        (following, '1', '1 0', 'root'),
        (following, '0 1', '01 10', 'passes'),
        (following, '0 1', '01 11', 'pending 2'),
        (following, '0 0', '00 10', 'failed 2 1'),
        (following, '0 0', '01 10', 'failed 1 1'),
        (a, '10', '0 0 1 1 1', 'pending 3'),
        (a, '10', '0 0 0 1 1', 'failed 4 0'),
        (a, '10 01', '01 01 11 11 11', 'pending 5'),
        (until, '10 01', '10 01 11', 'passes'),
        (until, '10 01', '10 00 10', 'failed 3 1'),
        (until, '10 10', '11 00 10', 'pending 3'),
        (until, '10 10', '10 00 10', 'failed 3 1'),
        ('rule-weak', '10 10', '11 00 10', 'pending 3'),
        ('rule-weak', '10 01', '10 01 10', 'passes'),
        ('rule-release', '01 01', '00 11 10', 'pending 3'),
        ('rule-release', '01 11', '01 11 10', 'passes'),
        ('rule-srelease', '01 01', '00 11 11', 'pending 3'),
        ('rule-srelease', '01 11', '01 11 11', 'passes'),
        ('rule-ever', '00 10', '01 11', 'passes'),
        ('rule-ever', '10 00', '10 11', 'pending 2'),
        ('rule-ever', '10 00', '10 10', 'passes'),
        ('rule-weak-of-negated', '00 00 00', '111 000 100', 'pending 3'),
        ('rule-weak-of-negated', '00 01 10', '100 010 100', 'passes'),
        ('rule-next-next-next', '00 00 00 01', '0001 0010 0100 1000', 'passes'),
        ('rule-next-next-next', '00 00 01', '000 001 010 100', 'pending 2'),
        ('rule-next-next-next', '00 00 01', '001 000 010 100', 'failed 3 2')):
    checked(r, take(c), sheet(s), found)

# limits: 125 rows and 256 cycles, one row, one cycle, 64 rows, words of 64 cycles
most, SILENT = 'rule-125-rows', take(['1'] + ['0'] * 255, 100, '256-one-at-0-loop-100')
full = true_rows(most, SILENT)
assert len(full) == 125


def turned(lines, k, i):
    return lines[:k - 1] + [lines[k - 1][:i] + '10'[int(lines[k - 1][i])] + lines[k - 1][i + 1:]] + lines[k:]


checked(most, SILENT, sheet(full, '125-rows'), 'passes')
checked(most, SILENT, sheet(turned(full, 2, 200), '125-rows-z2-at-200'), 'failed 4 200')
checked(most, SILENT, sheet(turned(full, 3, 255), '125-rows-z3-at-255'), 'failed 3 256')
chain = 'rule-64-rows'
for t in (one(64, 63), one(65, 63, 64), one(256, 63), one(256, 63, 128)):
    lines = true_rows(chain, t)
    checked(chain, t, sheet(lines, f'chain-{t[5:]}'), 'passes')
checked(chain, one(64, 63), sheet(turned(true_rows(chain, one(64, 63)), 40, 63), 'chain-64-one-at-63-open-z40-at-63'))
whole = rule('always-or-one', 'sig 1', 'always 1', 'true', 'or 2 3', signals=1)


def gapped(n, loop, gap, set_at):
    """A rule, a take and a sheet: signal and row 1 are on but at the gap, row 2 (always 1) is set at one cycle."""
    on = ''.join('01'[i != gap] for i in range(n))
    t = take(list(on), loop, f'{n}-gap-{gap}-{"open" if loop is None else f"loop-{loop}"}')
    lines = [on, ''.join('01'[i == set_at] for i in range(n)), '1' * n, '1' + '0' * (n - 1)]
    return whole, t, sheet(lines, f'{n}-gap-{gap}-set-{set_at}')


for names, found in (
        (gapped(256, 0, 254, 255), 'failed 2 510'), (gapped(256, 0, 0, 255), 'failed 2 256'), (gapped(256, 1, 0, 255), 'passes'),
        (gapped(256, 255, 0, 255), 'passes'), (gapped(256, None, 0, 255), 'pending 2'), (gapped(129, 64, 127, 128), 'failed 2 192'),
        (gapped(128, 63, 64, 127), 'failed 2 129'), (gapped(200, 65, 64, 199), 'passes'), (gapped(200, 64, 64, 199), 'failed 2 200'),
        (gapped(200, None, 64, 65), 'pending 2'), (gapped(65, 0, 63, 64), 'failed 2 128'), (gapped(65, None, 64, 63), 'failed 2 64')):
    checked(*names, found)
last = rule('again', 'sig 1', 'ever 1', 'always 2', signals=1)
for t, found in ((one(256, 255, 0), 'passes'), (one(256, 255, 255), 'passes'), (one(256, 254, 255), 'starved 2'),
                 (one(256, 0, 1), 'starved 2'), (one(256, 0, 0), 'passes'), (one(256, 128, 128), 'passes'),
                 (one(256, 127, 128), 'starved 2'), (one(256, 255), 'pending 3'), (one(256, 64, 65), 'starved 2')):
    lines = [''.join(tables[t][0]), '1' * 256, '1' * 256]
    checked(last, t, sheet(lines, f'again-{tables[t][0].index("1")}'), found)

# refusals: the rule's and the take's come before anything of the sheet
good = sheet_text(tables[GOOD])
LONGER = judge.LONGER
for name, number, line in (('empty', 2, 1), ('word', 2, 7), ('row-surplus', 2, 10), ('format-2', 3, 1), ('33-signals', 4, 2),
                           ('0-rows', 4, 3), ('signal-3', 5, 6), ('operand-of-itself', 5, 8)):
    refused('rule-bad-' + name, FAIR, GOOD, number, 1, line)
for name, number, line in (('empty', 2, 1), ('digit-2', 2, 6), ('cycle-surplus', 2, 7), ('loop-word', 2, 4), ('format-0', 3, 1),
                           ('0-signals', 4, 2), ('0-cycles', 4, 3), ('loop-2', 6, 4)):
    refused(a, 'take-bad-' + name, GOOD, number, 2, line)

# the sheet's own
for name, text, number, line in (
        ('empty', '', 2, 1),
        ('no-line-feed', good[:-1], 2, 8),
        ('row-absent', sheet_text(tables[GOOD][:4], count=5), 2, 8),
        ('row-surplus', good + 'z6=00\n', 2, 9),
        ('line-feed-surplus', good + '\n', 2, 9),
        ('carriage-returns', good.replace('\n', '\r\n'), 2, 1),
        ('rows-from-0', good.replace('z1=', 'z0='), 2, 4),
        ('key', good.replace('z3=', 'z03='), 2, 6),
        ('key-r', good.replace('z2=', 'r2='), 2, 5),
        ('digits-few', good.replace('z2=01', 'z2=0'), 2, 5),
        ('digits-many', good.replace('z2=01', 'z2=010'), 2, 5),
        ('digit-2', good.replace('z5=11', 'z5=12'), 2, 8),
        ('space', good.replace('z4=11', 'z4=1 1'), 2, 7),
        ('order', good.replace('rows=5\ncycles=2\n', 'cycles=2\nrows=5\n'), 2, 2),
        ('signals', good.replace('rows=5', 'signals=2\nrows=5'), 2, 2),
        ('rows-six-digits', good.replace('rows=5', 'rows=100000'), 2, 2),
        ('format-2', good.replace('format=1', 'format=2'), 3, 1),
        ('format-0', good.replace('format=1', 'format=0'), 3, 1),
        ('0-rows', good.replace('rows=5', 'rows=0'), 4, 2),
        ('129-rows', good.replace('rows=5', 'rows=129'), 4, 2),
        ('99999-rows', good.replace('rows=5', 'rows=99999'), 4, 2),
        ('0-cycles', good.replace('cycles=2', 'cycles=0'), 4, 3),
        ('257-cycles', good.replace('cycles=2', 'cycles=257'), 4, 3),
        ('first-fault', good.replace('rows=5', 'rows=129').replace('cycles=2', 'cycles=x'), 4, 2),
        ('65536-bytes', good + '\n' * (65536 - len(good)), 2, 9)):
    refused(a, FAIR, file('sheet-bad-' + name, text), number, 3, line)

# a byte too many; one file serves as rule, take and sheet
refused(LONGER, FAIR, GOOD, 1, 1, 0)
refused(a, LONGER, GOOD, 1, 2, 0)
refused(a, FAIR, LONGER, 1, 3, 0)

# 7, and 9 by rows (those of the normal form, not of the rule) and by cycles
refused(a, take('1 0', 0), GOOD, 7, 0, 0)
refused(following, FAIR, sheet('01 11'), 7, 0, 0)
refused(following, take('10 01'), GOOD, 7, 0, 0)
refused(a, FAIR, sheet('01 01 11 11'), 9, 0, 0)
refused(a, FAIR, sheet('01 01 11 11 11 11'), 9, 0, 0)
refused(a, FAIR, sheet('1 1 1 1 1'), 9, 0, 0)
refused(a, FAIR, sheet('111 111 111 111 111'), 9, 0, 0)
refused(a, FAIR, sheet('11'), 9, 0, 0)
refused(a, take('10'), GOOD, 9, 0, 0)
refused(a, FAIR, sheet(['11'] * 128, '128-rows'), 9, 0, 0)
refused(a, FAIR, sheet(['1' * 256] * 5, '256-cycles'), 9, 0, 0)
refused(most, SILENT, sheet(full + ['0' * 256] * 3, '128-rows-256-cycles'), 9, 0, 0)

# the order: rule, take, sheet, 7, 9; files that are not there; files that changed places
refused('rule-bad-word', 'take-bad-loop-2', 'sheet-bad-digit-2', 2, 1, 7)
refused('rule-bad-word', FAIR, LONGER, 2, 1, 7)
refused(a, 'take-bad-loop-2', 'sheet-bad-digit-2', 6, 2, 4)
refused(a, 'take-bad-loop-2', LONGER, 6, 2, 4)
refused(following, 'take-bad-loop-2', GOOD, 6, 2, 4)
refused(following, FAIR, 'sheet-bad-digit-2', 2, 3, 8)
refused(following, FAIR, LONGER, 1, 3, 0)
refused(following, FAIR, GOOD, 7, 0, 0)
refused(a, take('1', 0), sheet('11'), 7, 0, 0)
refused('rule-missing', FAIR, GOOD, 2, 1, 1)
refused(a, 'take-missing', GOOD, 2, 2, 1)
refused(a, FAIR, 'sheet-missing', 2, 3, 1)
refused('rule-missing', 'take-missing', 'sheet-missing', 2, 1, 1)
refused(a, GOOD, FAIR, 2, 2, 2)
refused(GOOD, FAIR, a, 2, 1, 2)
refused(a, FAIR, a, 2, 3, 2)
refused(a, FAIR, FAIR, 2, 3, 2)

# the sheets made, for the pairs judged; the largest only where they are named here
LARGE = {(most, SILENT), (most, one(63, 1, 1)), (chain, one(63, 1, 1)), (chain, one(65, 63, 64)),
         ('rule-32-signals', 'take-32-signals-open'), ('rule-32-signals', 'take-32-signals-loop-100')}
for r, t, is_refused in judge.pairs + [(most, SILENT, False)]:
    if is_refused and '65536' not in r + t or not is_refused and ((r, t) in LARGE or rows_of(r) * len(tables[t][0]) <= 1600):
        case('sheet', r, t, ends=ask(f'judge {r} {t}') if is_refused else good if (r, t) == (a, FAIR) else '')
assert all(f'sheet {r} {t}' in cases for r, t in LARGE)


def sheet_length(rule_name, take_name, by_hand=None):
    """The length of the sheet made: that of what `sheet` prints, and 0 where that is `none`."""
    made = ask(f'sheet {rule_name} {take_name}')
    length = 0 if made == 'none\n' else len(made)
    assert by_hand in (None, length), (rule_name, take_name, length)
    case('sheet_length', rule_name, take_name, ends=f'length={length}\n')


# the lengths of sheets, and 0 where there is none
for r, c, loop, by_hand in (
        (a, '10 01', 0, 55), (a, '10 10', 1, 0), (a, '10', None, 0), (a, '10 01', None, 0), (until, '10 01', None, 43),
        (until, '10 10', None, 0), (until, '10 00', None, 0), (until, '10', 0, 0), ('rule-weak', '10', 0, 40),
        ('rule-weak', '10 10', None, 0), (again, '01 01 00', 2, 0), (again, '00 01 00', 1, 46), ('rule-always-true', '0', None, 0),
        ('rule-always-true', '0', 0, 35), (following, '1', 0, 35), (following, '1', None, 0), (following, '0 1', None, 37),
        ('rule-true-alone', '0', 0, 30), ('rule-true-alone', '0', None, 30)):
    sheet_length(r, take(c, loop), by_hand)
# where the counts and the rows' numbers get a digit more; at full size
for rows, cycles in ((9, 9), (10, 10), (99, 99), (100, 100), (9, 100), (100, 9), (10, 99), (99, 10)):
    t = one(cycles, 0, 1)
    sheet_length(edges[rows], t, len(sheet_text(['0' * cycles] * rows)))
    case('sheet', edges[rows], t)
sheet_length(most, SILENT, 32671)
for r, t in sorted(LARGE):
    sheet_length(r, t)
# refused as `sheet` is
for r, t, *by_hand in (
        ('rule-bad-word', FAIR, 2, 1, 7), ('rule-bad-format-2', FAIR, 3, 1, 1), ('rule-bad-0-rows', FAIR, 4, 1, 3),
        ('rule-bad-signal-3', FAIR, 5, 1, 6), (LONGER, FAIR, 1, 1, 0), ('rule-missing', 'take-missing', 2, 1, 1),
        ('rule-bad-word', 'take-bad-loop-2', 2, 1, 7), (a, 'take-bad-digit-2', 2, 2, 6), (a, 'take-bad-format-0', 3, 2, 1),
        (a, 'take-bad-0-cycles', 4, 2, 3), (a, 'take-bad-loop-2', 6, 2, 4), (a, LONGER, 1, 2, 0), (a, 'take-missing', 2, 2, 1),
        (following, 'take-bad-loop-2', 6, 2, 4), (following, FAIR, 7, 0, 0), (a, take('1', 0), 7, 0, 0)):
    case('sheet_length', r, t, ends=refusal(*by_hand))


def fits(text):
    """A sheet passes exactly where the take holds or is kept."""
    return (value(text, 'passing') != '0') == (value(text, 'verdict') in ('holds', 'kept'))


# all sheets tried, of up to nine digits, and of ten to twelve sixty times
left = 60
for r, t in dict.fromkeys([p[:2] for p in judge.pairs if not p[2]] + [p[:2] for p in triples]):
    size = rows_of(r) * len(tables[t][0])
    if size <= (12 if left else 9):
        left -= size > 9
        case('all_sheets', r, t, right=fits)
