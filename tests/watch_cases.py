"""Runs in memory (02, request 1): a rule that is judged while its take is recorded, and runs that no calls lead to. All refusals stand
here by hand, and so do the verdicts but those on every take of two cycles."""
import itertools

from sheet_cases import KINDS
from suite import case, refusal


def said(answer=''):
    """What is printed of a word: of a change nothing, of a call `ok`, a verdict, a refusal's number, or its number and the rule's line."""
    if answer in ('', 'ok'):
        return f'{answer}\n' if answer else ''
    if '@' in answer:
        number, line = answer.split('@')
        return refusal(number, 1, line)
    return (refusal(answer, 0, 0) if answer.isdigit() else f'verdict={answer}\n') + 'run=same\n'


def run(name, *words):
    """A run with this rule: changes, and calls with a colon and the answer."""
    words = [word.split(':') for word in ' '.join(words).split(' ')]
    by_hand = 'ok\n' + ''.join(said(*answer) for _, *answer in words)
    case('run', name, *(word for word, *_ in words), right=lambda text: text == by_hand)


def decided(text):
    """Whether the verdicts are open up to one that stays."""
    verdicts = [line[8:] for line in text.splitlines() if line.startswith('verdict=')]
    late = list(itertools.dropwhile('open'.__eq__, verdicts))
    return len(verdicts) == 2 and len(set(late)) <= 1


def times(count, word):
    return ' '.join([word] * count)


# each kind and its negation on every take of two cycles, called on before the first and behind each
for name in [f'rule-{sign}{word}' for word in [*KINDS, 'not'] for sign in ('', 'not-')]:
    for first, second in itertools.product(('00', '01', '10', '11'), repeat=2):
        case('run', name, '?', first, '?', second, '?', right=lambda text: text.startswith(f'ok\n{said("4")}ok\n') and decided(text))

# open, then broken or kept, and so for good
a, request, until, ever, always = 'rule-a', 'rule-next-pull', 'rule-until', 'rule-ever', 'rule-always'
run(request, '?:4 10:ok ?:open 01:ok ?:open ?:open 10:ok 00:ok ?:broken 01:ok ?:broken')
run(until, '10:ok ?:open 10:ok ?:open 01:ok ?:kept 00:ok ?:kept')
run(until, '10:ok ?:open 00:ok ?:broken 01:ok ?:broken')
run('rule-weak', '10:ok 10:ok ?:open 11:ok ?:kept')
run(a, '10:ok ?:open 01:ok ?:open 10:ok ?:open')
run('rule-always-true', '0:ok ?:open 1:ok ?:open')
run('rule-false', '00:ok ?:broken 11:ok ?:broken')

# refused cycles are none: other bytes before a wrong number of digits, and nothing is a wrong number
run(request, '10:ok 2:2 1x1:2 -1:2 12:2 1:7 101:7 :7 ?:open 0/:2 :7 00:ok ?:broken')
run(request, ':7 2:2 ?:4 0:7 10:ok ?:open')
run('rule-next-one', '10:7 1:ok 0:ok ?:broken')

# 256 cycles and no more; there too other bytes and wrong numbers of digits come first
run(ever, times(255, '00:ok'), '?:open 10:ok ?:kept 10:11 12:2 2:2 101:7 :7 00:11 ?:kept')
run(always, times(255, '10:ok'), '?:open 00:ok ?:broken 00:11 ?:broken begin:ok ?:4 10:ok ?:open')
run(until, times(256, '10:ok'), '?:open 01:11 ?:open')
for count in (63, 64, 65, 127, 128, 191, 192, 255):
    run(until, times(count, '10:ok'), '?:open 01:ok ?:kept')
    run(until, times(count, '10:ok'), '?:open 00:ok ?:broken')

# 32 signals, of which the last or the first decides
wide, last = 'rule-32-signals', 'rule-signal-32'
run(last, times(2, f'{"1" * 32}:ok ?:open {"1" * 31}:7 {"1" * 33}:7 {"1" * 31}x:2'), f'{"1" * 31}0:ok ?:kept')
run(last, times(100, f'{"01" * 16}:ok'), f'?:open {"10" * 16}:ok ?:kept')
run(wide, times(100, f'0{"1" * 31}:ok'), f'?:open {"1" * 32}:ok ?:open {"0" * 32}:ok ?:open')
run(wide, f'0{"1" * 30}0:ok ?:open {"0" * 32}:ok ?:open 1{"0" * 31}:ok ?:open')

# a rule file that is refused begins no run
for name, *by_hand in (('rule-bad-word', 2, 1, 7), ('rule-bad-operand-of-itself', 5, 1, 8), ('rule-missing', 2, 1, 1)):
    case('run', name, '10', '?', right=lambda text, by_hand=by_hand: text == refusal(*by_hand))

# begin refuses a rule in memory as its file: the run that it hands back is none, and gives 4 before all else
for change, refused in (('rows=0', '4@3'), ('rows=65', '4@3'), ('rows=255', '4@3'), ('signals=0', '4@2'), ('signals=33', '4@2'),
                        ('signals=1', '5@6'), ('rows=0 signals=33', '4@2'), ('signals=1 rows=65', '4@3')):
    run(a, '10:ok', change, f'begin:{refused} 10:4 ?:4 2:4 begin:{refused} ?:4 rows=6 signals=2 ?:4 10:ok ?:open')
# what the rule of a run has in unused places goes when another run begins with it
run(a, '10:ok place=63 10:4 ?:4 begin:ok ?:4 10:ok ?:open')
run(a, '10:ok 01:ok begin:ok ?:4 signals=3 begin:ok 10:7 101:ok ?:open')

# runs that no calls lead to give 4 before all else, and are handed back as they were
for change in ('signals=0', 'signals=1', 'signals=33', 'signals=255', 'rows=0', 'rows=5', 'rows=65', 'rows=255',
               'cycles=0', 'cycles=257', 'cycles=65535', 'bit=1', 'bit=63', 'bit=65', 'bit=128', 'bit=1984', 'bit=2048',
               'bit=4096', 'bit=8191', 'place=6', 'place=63'):
    run(a, '10:ok', change, '10:4 ?:4 2:4 1:4 :4 ?:4')
run(a, 'bit=0 10:4 ?:4')
run(a, 'bit=8191 10:4 ?:4')
run(a, times(256, '10:ok'), 'place=63 10:4 2:4 1:4 ?:4')
run(a, times(64, '00:ok'), 'bit=2048 10:4 ?:4 cycles=65 10:ok ?:open')
run(wide, f'{"1" * 32}:ok bit=1 {"1" * 32}:4 ?:4')
# what is set back is as it was
run(request, '10:ok rows=0 00:4 ?:4 rows=6 ?:open 00:ok ?:broken')
run(request, '10:ok cycles=0 00:4 ?:4 cycles=1 ?:open 00:ok ?:broken')
run(request, '10:ok signals=33 00:4 ?:4 signals=2 ?:open 00:ok ?:broken')

# changes to what other calls lead to: cycles of zeros, a digit, a signal, a rule
run(request, '10:ok cycles=2 ?:broken 01:ok ?:broken')
run(request, '10:ok cycles=256 ?:broken 01:11')
run(request, '00:ok cycles=0 ?:4 10:ok ?:open')
run(until, '10:ok ?:open bit=0 ?:open bit=64 ?:kept')
run(until, '10:ok signals=3 ?:open 10:7 010:ok ?:kept')
run(a, '10:ok rows=7 ?:kept 00:ok ?:kept')
run(a, '10:ok place=5 ?:broken 00:ok ?:broken')
run(a, '10:ok rows=64 ?:kept place=63 ?:broken')
