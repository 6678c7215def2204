"""Takes with rounds of their loop written out before it (02, request 6): d rounds make of n cycles with loop l and p = n - l those of
n + d p with loop l + d p, and none where these are more than 256. The answers stand here by hand, those of long takes as
the slices of the take that they are."""
from judge_cases import FULL
from suite import case, refusal, take, take_text

PATTERN = [digits[:3] for digits in FULL]  # three signals, with no period in 256 cycles


def written(name, rounds, cycles, loop='none'):
    """The take that must be printed: its cycles and its loop."""
    expected = take_text(cycles.split() if isinstance(cycles, str) else cycles, loop)
    case('written_out', name, rounds, right=lambda text: text == expected)


def none(name, rounds):
    case('written_out', name, rounds, right=lambda text: text == 'none\n')


def pattern(count, loop):
    return take(PATTERN[:count], loop, f'{count}-cycles-loop-{loop}')


def repeated(count, loop, rounds, new_count, new_loop):
    """The same of a take of the pattern: what comes before its loop, and then one round more than is written out."""
    cycles = PATTERN[:loop] + PATTERN[loop:count] * (rounds + 1)
    assert len(cycles) == new_count
    written(pattern(count, loop), rounds, cycles, new_loop)


# an open take has no loop, and no rounds change nothing; the first of these two open ones is short, the second the longest of take files
written(take('10 01'), 3, '10 01')
written('take-32-signals-open', 255, FULL)
three = take('100 010 001', 1)
written(three, 0, '100 010 001', 1)
written('take-full', 0, ['01' * 16] * 256, 0)

# some rounds; of a loop of one cycle; of one that begins at 0; of a file with padded numbers, which are not padded in what is printed
written(three, 1, '100 010 001 010 001', 3)
written(three, 2, '100 010 001 010 001 010 001', 5)
last, fair = take('0 1', 1), take('10 01', 0)
written(last, 3, '0 1 1 1 1', 4)
written(fair, 3, '10 01 10 01 10 01 10 01', 6)
written(f'{fair}-padded', 1, '10 01 10 01', 2)

# 256 cycles
written(take('1', 0), 255, ['1'] * 256, 255)
written(last, 254, ['0'] + ['1'] * 255, 255)
repeated(129, 2, 1, 256, 129)
written(take(FULL[:128], 0, '128-cycles-32-signals'), 1, FULL[:128] * 2, 128)

# 257, 257, 257, 258 and 65,536
none(last, 255)
none(pattern(129, 1), 1)
none('take-256-cycles', 1)
none(fair, 128)
none('take-full', 255)

# rounds of 33 cycles, which begin and end anywhere in the words of 64; rounds of 3, all behind the first word
repeated(40, 7, 1, 73, 40)
repeated(40, 7, 6, 238, 205)
repeated(73, 70, 40, 193, 190)

# refusals of the file
case('written_out', 'take-missing', 1, ends=refusal(2, 2, 1))
case('written_out', 'take-257-cycles', 0, ends=refusal(4, 2, 3))
case('written_out', 'take-loop-2', 1, ends=refusal(6, 2, 4))
case('written_out', 'take-65537-bytes', 255, ends=refusal(1, 2, 0))
