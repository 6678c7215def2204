#!/usr/bin/env python3
"""Writes the first inputs of every fuzz target to FOLDER/TARGET/, from examples/ and the files that crates/try_services reads alone, as
they are and padded.

    fuzz/seeds.py FOLDER

Inputs of several files are made of files of up to 1 KB, and of long takes; they have the lengths of all but the last in front, two bytes
each, the higher first (src/parts.rs). Inputs of one file may be longer, up to one byte more than a file may have; fuzzing cuts them.
"""
import pathlib
import random
import re
import sys

ROOT = pathlib.Path(__file__).resolve().parent.parent
CASES = ROOT / "crates/try_services"
DATA = CASES / "data"
LONGEST = 1024
ROWS = ["not 1", "and 1 2", "or 1 2", "next 1", "always 1", "ever 1", "weak 1 2", "until 1 2", "release 2 1", "srelease 2 1"]
# a toggle flip-flop with enable and reset, its gates from the last to the first
FALLING = b"aag 7 2 1 2 4\n2\n4\n6 14\n6\n7\n14 4 12\n12 9 11\n10 3 7\n8 2 6\n"


def join(*files):
    lengths = b"".join(len(file).to_bytes(2, "big") for file in files[:-1])
    return lengths + b"".join(files)


def of_kind(kind):
    """The contents of all files of a kind, in the order of their paths."""
    cases = [line.split() for line in (CASES / "args").read_text().splitlines()]
    named = [DATA / words[1] for words in cases if words[0] == f"read_{kind}"]
    return [path.read_bytes() for path in sorted([*named, *ROOT.glob(f"examples/*/{kind}.txt")]) if path.is_file()]


def small(files):
    return [file for file in files if len(file) <= LONGEST]


def padded(file):
    """The file with the numbers in its values padded to five digits, as the bench pads them; what a cycle or a sheet's row has is none."""
    def pad(line):
        return line[1] + re.sub(rb"(?<!\d)\d{1,5}(?!\d)", lambda number: number[0].rjust(5, b"0"), line[2])
    return re.sub(rb"(?m)^((?![cz]\d)[^=\n]*=)(.*)$", pad, file)


def all_padded(lists):
    return [[padded(file) for file in files] for files in lists]


def zeros(file):
    """The file with one zero in front of its digits at some place, in keys and values; with six digits there; and with a padded zero."""
    for place in re.finditer(rb"\d+", file):
        for digits in (b"0" + place[0], place[0].rjust(6, b"0"), b"00000"):
            yield file[:place.start()] + digits + file[place.end():]


def examples(*names):
    """The files of these names of each example that has them all."""
    for folder in sorted(ROOT.glob("examples/*/")):
        paths = [folder / name for name in names]
        if all(path.is_file() for path in paths):
            yield [path.read_bytes() for path in paths]


def long_pairs():
    """Long takes with few changes, since the library works on 64 cycles at a time, each with a rule that always holds: so the sheet
    made shows the truth of the row at every cycle."""
    chance = random.Random(1)
    for row in ROWS:
        for count, loop in ((200, "none"), (105, 3), (200, 70)):
            rule = f"format=1\nsignals=2\nrows=5\nr1=sig 1\nr2=sig 2\nr3={row}\nr4=true\nr5=or 3 4\n"
            cycles = "".join(f"c{n}={int(chance.random() < 0.97)}{int(chance.random() < 0.03)}\n" for n in range(count))
            yield [rule.encode(), f"format=1\nsignals=2\ncycles={count}\nloop={loop}\n{cycles}".encode()]


def nested_pairs():
    """Chains of rows that look ahead, on loops: whoever works out truth in rounds of the loop needs the more, the longer a chain is. Each
    rule always holds, so that the sheet made shows the truth of all rows."""
    chains = [["next {}"], ["always {}"], ["ever {}"], ["always {}", "ever {}"], ["next {}", "ever {}"]]
    chains += [["until {} 1", "release 1 {}"], ["weak 1 {}", "srelease {} 1"], ["until {0} {0}", "next {}"]]
    for words in chains:
        for length in (2, 3, 9, 30):
            rows = ["sig 1", *(words[n % len(words)].format(n) for n in range(1, length + 1))]
            rows += ["true", f"or {length + 1} {length + 2}"]
            lines = "".join(f"r{n}={row}\n" for n, row in enumerate(rows, 1))
            rule = f"format=1\nsignals=1\nrows={len(rows)}\n{lines}"
            for digits, loop in (("1", 0), ("10", 0), ("01", 1), ("01101", 2)):
                cycles = "".join(f"c{n}={digit}\n" for n, digit in enumerate(digits))
                yield [rule.encode(), f"format=1\nsignals=1\ncycles={len(digits)}\nloop={loop}\n{cycles}".encode()]


def limits():
    """Rule, take and sheet with the most signals and the most cycles."""
    for signals, cycles in ((32, 1), (1, 256)):
        for loop in ("none", cycles - 1):
            lines = "".join(f"c{n}={'1' * signals}\n" for n in range(cycles))
            rule = f"format=1\nsignals={signals}\nrows=1\nr1=sig {signals}\n"
            take = f"format=1\nsignals={signals}\ncycles={cycles}\nloop={loop}\n{lines}"
            sheet = f"format=1\nrows=1\ncycles={cycles}\nz1={'1' * cycles}\n"
            yield [rule.encode(), take.encode(), sheet.encode()]


def many_rows(count, signals):
    """A rule with so many rows in its normal form, both signs of most rows being reached; it always holds and is always kept."""
    chain = (count - 1) // 2
    rows = [f"sig {signals}", *(f"{'and' if n % 2 else 'or'} {n} 1" for n in range(1, chain))]
    rows += [f"not {chain}", f"or {chain} {chain + 1}", *([] if count % 2 else [f"and {chain + 2} {chain + 2}"])]
    lines = "".join(f"r{n}={row}\n" for n, row in enumerate(rows, 1))
    return f"format=1\nsignals={signals}\nrows={len(rows)}\n{lines}".encode()


def digit_more():
    """Rules and takes just below the counts whose numbers have a digit more, and at them, for the lengths; and with the most rows."""
    for rows, signals, cycles in ((9, 9, 9), (10, 10, 10), (99, 9, 99), (100, 10, 100), (125, 32, 1)):
        lines = "".join(f"c{n}={('10' * signals)[:signals]}\n" for n in range(cycles))
        for loop in ("none", cycles - 1):
            take = f"format=1\nsignals={signals}\ncycles={cycles}\nloop={loop}\n{lines}"
            yield [many_rows(rows, signals), take.encode()]


def changes(*pairs):
    """Changes of a run's bytes: places, and the bits to turn there; a place behind the run gives its length (src/runs.rs)."""
    return b"".join(place.to_bytes(2, "big") + bytes([bits]) for place, bits in pairs)


def runs(rule, rules):
    """Runs of the examples and of all rules; long ones, since words of digits end at each 64 cycles and the run at 256; and changed ones:
    the digit of a cycle, of one that was not handed over, of a signal that is not there; each byte of the rows and of the place behind
    them; the counts; and other lengths."""
    yield from ([*pair, b""] for pair in examples("rule.txt", "cycles.txt"))
    yield from ([other, b"?\n10\n?\n0x1\n1\n01\n?\n", b""] for other in rules)
    for count in (63, 64, 65, 128, 192, 255, 256, 257):
        for row, same, other in (("always 1", "1", "0"), ("ever 1", "0", "1")):
            long_rule = f"format=1\nsignals=1\nrows=2\nr1=sig 1\nr2={row}\n".encode()
            for last in (same, other):
                lines = [same] * (count - 1) + [last, "?", "00", "0x"]
                yield [long_rule, "".join(f"{line}\n" for line in lines).encode(), b""]
    calls = b"10\n01\n"
    places = [0, 8, 16, 255, 256, 1023, *range(1024, 1045), 1215, *range(1216, 1220)]
    yield from ([rule, calls, changes((place, bits))] for place in places for bits in (1, 2, 4, 128))
    plain = b"format=1\nsignals=1\nrows=1\nr1=true\n"  # zeros but for its counts
    yield from ([plain, b"0\n", changes((place, 1))] for place in range(1216, 1220))
    yield from ([rule, calls, changes((1218, count), (1219, high))] for count, high in ((1, 0), (2, 0), (0xFD, 0), (2, 1), (3, 1)))
    yield from ([rule, calls, changes((1220 + length, 0))] for length in (0, 1, 1216, 1219, 1221, 1500))


def literals(circuit):
    """A small circuit with each number from 0 to two more than the highest literal in the place of each of its numbers, and with lines left
    out, twice and exchanged: so each fault of a line is there."""
    places = list(re.finditer(rb"\d+", circuit))
    highest = 2 * int(places[0][0]) + 1
    for place in places:
        for number in range(highest + 3):
            yield circuit[:place.start()] + b"%d" % number + circuit[place.end():]
    lines = circuit.splitlines(keepends=True)
    for place in range(len(lines)):
        yield b"".join(lines[:place] + lines[place + 1:])
        yield b"".join(lines[:place + 1] + lines[place:])
        yield b"".join(lines[:place] + lines[place + 1:place + 2] + lines[place:place + 1] + lines[place + 2:])


def with_digits(circuit, digits):
    """The circuit with as many digits as it asks for; the latches begin with the last of them."""
    counts = re.match(rb"aag \d+ (\d{1,4}) (\d{1,4}) ", circuit)
    inputs, latches = (int(count) for count in counts.groups()) if counts else (2, 1)
    return [(digits * inputs)[:inputs], (digits[::-1] * latches)[:latches], circuit]


def circuits(files, small_ones):
    """Circuits with digits; the small ones with others, with another byte, and with one too few or too many."""
    yield from (with_digits(circuit, b"10") for circuit in files)
    for circuit in small_ones:
        yield from (with_digits(circuit, digits) for digits in (b"01", b"0", b"1"))
        inputs, latches, _ = with_digits(circuit, b"1")
        yield from ([other, latches, circuit] for other in (inputs + b"2", b"/" + inputs, inputs + b"1", inputs[1:]))
        yield from ([inputs, other, circuit] for other in (latches + b"2", b"/" + latches, latches + b"1", latches[1:]))


def seeds():
    rules, takes, sheets = of_kind("rule"), of_kind("take"), of_kind("sheet")
    rule, take, sheet = [(DATA / name).read_bytes() for name in ("rule-a", "take-a", "sheet-a")]
    rules += [pair[0] for pair in digit_more()]
    for kind, files, file in (("rule", rules, rule), ("take", takes, take), ("sheet", sheets, sheet)):
        long = [file.ljust(length, b"\n") for length in (65_536, 65_537)]
        yield kind, [*files, *long, *map(padded, small(files)), *zeros(file)]
    rules, takes, sheets = small(rules), small(takes), small(sheets)
    pairs = [*examples("rule.txt", "take.txt"), *([other, take] for other in rules), *([rule, other] for other in takes)]
    pairs += [*long_pairs(), *digit_more(), *(triple[:2] for triple in limits()), *all_padded(examples("rule.txt", "take.txt"))]
    yield "judge", [join(*pair) for pair in [*pairs, *nested_pairs(), [rule, take.ljust(65_537, b"\n")]]]
    whole = [*examples("rule.txt", "take.txt", "sheet.txt"), [rule, take, sheet]]
    triples = [[*pair, sheet] for pair in pairs] + [[rule, take, other] for other in sheets] + list(limits())
    yield "check", [join(*triple) for triple in [*whole, *triples, *all_padded(whole)]]
    rules += [padded(rule)]
    yield "step", [join(other, b"00000", b"11111", b"10") for other in rules]
    yield "run", [join(*run) for run in runs(rule, rules)]
    small_ones = [(DATA / f"circuit-{name}").read_bytes() for name in ("or", "toggle", "later-gate-first", "inputs-above-gates")]
    changed = [file for circuit in small_ones for file in (*literals(circuit), *zeros(circuit))]
    files = [*of_kind("circuit"), *(file for [file] in examples("expected-circuit.txt")), *changed]
    yield "circuit", [join(*parts) for parts in circuits([*files, FALLING], [*small_ones, FALLING])]


def main():
    if len(sys.argv) != 2:
        sys.exit(__doc__)
    for target, inputs in seeds():
        folder = pathlib.Path(sys.argv[1]) / target
        folder.mkdir(parents=True, exist_ok=True)
        for number, content in enumerate(dict.fromkeys(inputs)):
            (folder / f"seed-{number:03}").write_bytes(content)


main()
