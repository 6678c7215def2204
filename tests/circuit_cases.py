"""The monitors of rules as circuits, and cycles of circuits. Circuits of single operators stand here by hand, from docs/CIRCUIT.md, and so
do the cycles of circuits that are no rule's, and all refusals; a cycle of a rule's circuit is held to the step with the same digits."""
from reading_cases import MONITORS
from sheet_cases import KINDS
from suite import ask, case, circuit_text, file, refusal, rows_of, tables, take, true_rows, value

BEHIND = 7  # bytes lent behind the output
MOST_LENT = 4096  # of try_services


def written(name, text):
    """The circuit with room behind it, and its file, to be simulated."""
    case('circuit', name, len(text) + BEHIND, ends=f'written={len(text)}\n{text}{"." * BEHIND}\n')
    return file(f'circuit-of-{name}', text)


def at_length(name):
    """With as many bytes as the circuit takes, and with one less, which is refused and leaves the buffer alone."""
    size = int(value(ask(f'circuit {name} {MOST_LENT}'), 'written'))
    case('circuit', name, size, right=lambda text: text.startswith(f'written={size}\n'))
    case('circuit', name, size - 1, ends=f'{refusal(10, 0, 0)}{"." * (size - 1)}\n')


def cycle(name, inputs, latches, digits, behind=0):
    """A cycle with a buffer that has so many bytes behind the output; the digits of the outputs and of the next latches."""
    case('simulate', name, inputs, latches, len(digits) + behind, ends=f'written={len(digits)}\n{digits}{"." * behind}\n')


def refused(name, inputs, latches, room, number, at_file=0, line=0):
    case('simulate', name, inputs, latches, room, ends=f'{refusal(number, at_file, line)}{"." * room}\n')


def as_step(name, circuit, latches, activators, signals, behind=0):
    """A cycle of a rule's circuit gives what the step does, and then the pendings once more; these."""
    n = rows_of(name)
    digits = ask(f'step {name} {latches} {activators} {signals} {3 * n}').splitlines()[1]
    cycle(circuit, signals + activators, latches, digits + digits[2 * n:], behind)
    return digits[2 * n:]


# 01's own rule, which docs/CIRCUIT.md has line by line; padded it is the same
a = written('rule-a', circuit_text(*MONITORS))
at_length('rule-a')
case('circuit', 'rule-a', 0, ends=refusal(10, 0, 0) + '\n')
case('circuit', 'rule-a-padded', 213, ends=f'written=213\n{circuit_text(*MONITORS)}\n')

# each kind by hand: the row itself, of two signals, behind its operands `sig 1` and `sig 2` where it has them
kinds = {}
for word, failed, gates in (('true', 0, ['10 0 0']), ('false', 6, ['10 0 0']), ('sig', 10, ['10 6 3']), ('nsig', 10, ['10 6 2'])):
    kinds[word] = ['aag 7 3 1 3 3', '2', '4', '6', '8 0', failed, '1', '0', *gates, '12 0 0', '14 0 0']
for word, failed, accept, pending, gates in (('next', 20, 1, 8, ['20 12 7', '22 0 0']), ('always', 22, 1, 21, ['20 9 13', '22 21 7']),
                                             ('ever', 0, 23, 22, ['20 9 13', '22 21 7'])):
    kinds[word] = ['aag 12 4 2 6 6', '2', '4', '6', '8', '10 0', f'12 {pending}', '14', failed, '1', accept, '0', pending,
                   '14 6 3', '16 0 0', '18 0 0', *gates, '24 0 0']
for word, failed, accept, pending, gates in (('and', 32, 1, 0, ['30 6 8', '32 10 31', '34 0 0']),
                                             ('or', 32, 1, 0, ['30 7 9', '32 10 30', '34 0 0']),
                                             ('weak', 34, 1, 32, ['30 11 17', '32 31 9', '34 32 7']),
                                             ('until', 34, 33, 32, ['30 11 17', '32 31 9', '34 32 7']),
                                             ('release', 34, 1, 32, ['30 11 17', '32 31 7', '34 31 9']),
                                             ('srelease', 34, 33, 32, ['30 11 17', '32 31 7', '34 31 9'])):
    kinds[word] = ['aag 17 5 3 9 9', '2', '4', '6', '8', '10', '12 0', '14 0', f'16 {pending}', '18', '24', failed, '1', '1', accept,
                   '0', '0', pending, '18 6 3', '20 0 0', '22 0 0', '24 8 5', '26 0 0', '28 0 0', *gates]
for word, lines in kinds.items():
    kinds[word] = written(f'rule-{word}', circuit_text(*lines))

# rows under both signs, rows that are not reached, a row's number with a digit more, the highest signal
for name in ('shared-under-both-signs', 'unreached', 'normal-form-of-9-rows', 'normal-form-of-10-rows', 'signal-32-alone'):
    at_length(f'rule-{name}')

# more than is lent here: the most rows
case('circuit', 'rule-125-rows', MOST_LENT, ends=f'{refusal(10, 0, 0)}{"." * MOST_LENT}\n')

# the rule's own come first: the call is not made
for name, *by_hand in (('rule-operand-out-of-range', 5, 1, 5), ('rule-missing', 2, 1, 1), ('rule-format-2', 3, 1, 1),
                       ('rule-65-nots', 4, 1, 3), ('rule-65537-bytes', 1, 1, 0)):
    case('circuit', name, 0, ends=refusal(*by_hand))

# the report's: an or-gate, a toggle flip-flop, and one with enable and reset
for inputs, output in (('00', '0'), ('01', '1'), ('10', '1'), ('11', '1')):
    cycle('circuit-or', inputs, '', output)
cycle('circuit-toggle', '', '0', '011')
cycle('circuit-toggle', '', '1', '100', BEHIND)
for inputs, latch, digits in (('01', '0', '010'), ('01', '1', '101'), ('11', '0', '011'), ('10', '1', '100')):
    cycle('circuit-enable-reset-in-order', inputs, latch, digits)
falling = file('circuit-enable-reset-falling',
               circuit_text('aag 7 2 1 2 4', '2', '4', '6 14', '6', '7', '14 4 12', '12 9 11', '10 3 7', '8 2 6'))
for inputs, latch, digits in (('11', '0', '011'), ('11', '1', '100'), ('01', '1', '101'), ('00', '1', '100')):
    cycle(falling, inputs, latch, digits)

# constants, nothing at all, and literals in other orders
cycle('circuit-nothing', '', '', '', BEHIND)
cycle('circuit-constants', '', '', '01')
cycle('circuit-inputs-falling', '101', '', '')
cycle(file('circuit-inputs-falling-told', circuit_text('aag 3 3 0 3 0', '6', '4', '2', '2', '4', '6')), '100', '', '001')
cycle('circuit-latches-falling', '', '100', '010')
cycle('circuit-latches-falling', '', '011', '101')
cycle('circuit-inputs-above-gates', '1', '1', '10')
cycle('circuit-inputs-above-gates', '0', '0', '01')
cycle('circuit-later-gate-first', '01', '', '0')
cycle('circuit-operands-either-way', '10', '', '1')
cycle('circuit-operands-either-way', '11', '', '0')
cycle('circuit-operands-equal', '0', '', '0')
cycle('circuit-operands-equal', '1', '', '1')
cycle('circuit-operands-constant', '', '', '0')
cycle('circuit-output-most', '1', '', '0')
cycle('circuit-outputs-equal', '1', '', '111', BEHIND)
case('simulate', 'circuit-300-gates-falling', '0', '', 1)
case('simulate', 'circuit-300-gates-falling', '1', '', 1)

# a file of the most bytes, whose gates each negate the one before, from the last on: an even number of them; and the most outputs, which
# are more than is lent here
gates = [f'{2 * k} {2 * k - 1} 1' for k in range(5469, 1, -1)]
chain = circuit_text('aag 5469 1 0 25 5468', 2, 10938, *[0] * 19, *[10] * 5, *gates)
assert len(chain) == 65536
longest = file('circuit-chain-65536-bytes', chain)
for digit in '01':
    cycle(longest, digit, '', digit + '0' * 19 + digit * 5)
refused(longest, '0', '', 24, 10)
refused('circuit-most-lines', '', '', MOST_LENT, 10)

# rule A's circuit along its take and sheet for three rounds: latches are handed on, and a refused call changes nothing
fair = take('10 01', 0)
lines, latches = true_rows('rule-a', fair), '00000'
for i in range(6):
    activators, signals = ''.join(z[i % 2] for z in lines), tables[fair][0][i % 2]
    if i % 3 == 1:
        refused(a, signals + activators, latches, 19, 10)
    latches = as_step('rule-a', a, latches, activators, signals, i)
as_step('rule-a', a, '11111', '00000', '00')
as_step('rule-a', a, '11111', '11111', '11', 40)

# each kind active in the first cycle, and where something is pending then, at rest in the second with the latches that the first leaves
for word in KINDS:
    name, n = f'rule-{word}', rows_of(f'rule-{word}')
    left = as_step(name, kinds[word], '0' * n, '0' * (n - 1) + '1', '10')
    if '1' in left:
        as_step(name, kinds[word], left, '0' * n, '01')

# refusals, each alone, and in their order where several have a reason
reset = 'circuit-enable-reset-in-order'
refused(reset, '0x', '0', 3, 2)
refused(reset, '00', '/', 3, 2)
refused(reset, '00', '0:', 3, 2)
refused(reset, '0', '0', 3, 7)
refused(reset, '000', '0', 3, 7)
refused(reset, '00', '', 3, 9)
refused(reset, '00', '00', 3, 9)
refused(reset, '00', '0', 2, 10)
refused(reset, '00', '0', 0, 10)
refused(reset, '000x', '00', 0, 2)
refused(reset, '0', '0x0', 0, 2)
refused(reset, '0', '00', 0, 7)
refused(reset, '00', '00', 0, 9)
refused('circuit-or', '00', '0', 1, 9)
refused('circuit-toggle', '0', '0', 3, 7)
refused('circuit-nothing', '0', '', 0, 7)
refused('circuit-nothing', '', '1', 0, 9)

# the file's own come first, each at its line
refused('circuit-65537-bytes', 'x', '0', 0, 1, 1, 0)
refused('circuit-empty', '', '', 5, 2, 1, 1)
refused('circuit-missing', 'x', '', 0, 2, 1, 1)
refused('circuit-header-maximum-one-more', '00', '', 1, 2, 1, 1)
refused('circuit-input-twice', '000', '', 0, 2, 1, 4)
refused('circuit-output-above', '', '0', 3, 2, 1, 4)
refused('circuit-gate-first-itself', '00', 'x', 0, 2, 1, 5)
refused('circuit-no-feed', '00', '', 1, 2, 1, 5)
refused('circuit-line-absent', '00', '', 1, 2, 1, 5)
refused('circuit-surplus-feed', '00', '', 1, 2, 1, 6)
