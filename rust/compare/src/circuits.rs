//! Circuits: small ones with every change of a byte, a number or a line, and random ones of any shape; wrong digits and counts; and a rule's
//! circuit, cycle after cycle, beside the rule's steps.

use crate::call::{Answer, Call, Service};
use crate::comparison::Implementation;
use crate::damage::damaged;
use crate::files::{random_rule, Size};
use crate::random::Random;
use crate::trials::{with_outputs, written, Make};
use std::fmt;
use std::ops::Range;

/// The longest file that is read.
const MOST_BYTES: usize = 65_536;

/// Circuits with all sections, in rising order and out of order; with a single section each; and with nothing.
const SMALL: &[&str] = &[
    "aag 7 2 2 3 3\n14\n2\n6 15\n4 13\n0\n15\n11\n12 10 9\n10 4 7\n8 2 0\n",
    "aag 5 1 2 2 2\n2\n4 10\n6 3\n10\n9\n8 5 2\n10 9 7\n",
    "aag 3 2 0 1 1\n2\n4\n7\n6 3 5\n",
    "aag 1 0 1 2 0\n2 3\n2\n3\n",
    "aag 2 2 0 0 0\n4\n2\n",
    "aag 2 0 0 0 2\n4 3 2\n2 1 0\n",
    "aag 0 0 0 2 0\n1\n0\n",
    "aag 0 0 0 0 0\n",
];

/// The lines of a circuit file by their sections, each line its numbers.
#[derive(Clone, Debug)]
struct Lines {
    maximum: usize,
    inputs: Vec<[usize; 1]>,
    latches: Vec<[usize; 2]>,
    outputs: Vec<[usize; 1]>,
    gates: Vec<[usize; 3]>,
}

impl fmt::Display for Lines {
    fn fmt(&self, f: &mut fmt::Formatter<'_>) -> fmt::Result {
        let Lines { maximum, inputs, latches, outputs, gates } = self;
        let [i, l, o, a] = [inputs.len(), latches.len(), outputs.len(), gates.len()];
        writeln!(f, "aag {maximum} {i} {l} {o} {a}")?;
        inputs.iter().try_for_each(|[literal]| writeln!(f, "{literal}"))?;
        latches.iter().try_for_each(|[literal, next]| writeln!(f, "{literal} {next}"))?;
        outputs.iter().try_for_each(|[literal]| writeln!(f, "{literal}"))?;
        gates.iter().try_for_each(|[literal, left, right]| writeln!(f, "{literal} {left} {right}"))
    }
}

impl Lines {
    /// Each number behind the header: those of a line stand side by side.
    fn numbers(&mut self) -> Vec<&mut usize> {
        let (inputs, latches) = (self.inputs.as_flattened_mut(), self.latches.as_flattened_mut());
        let (outputs, gates) = (self.outputs.as_flattened_mut(), self.gates.as_flattened_mut());
        inputs.iter_mut().chain(latches).chain(outputs).chain(gates).collect()
    }

    /// A cycle of this circuit with these digits.
    fn cycle(&self, random: &mut Random) -> Call {
        let ones = random.between(0, 8);
        let [inputs, latches] =
            [self.inputs.len(), self.latches.len()].map(|count| random.digits(count, ones).into_bytes());
        Service::Simulate.of(&[self.to_string().as_bytes(), &inputs, &latches])
    }
}

/// Every cycle of every circuit with an input, a latch, an output and a gate; of the small circuits every cycle, and one with each change of
/// the file, of the digits and of what is lent.
pub fn all_small(make: Make) -> Result<(), String> {
    for file in all_with_one_of_each() {
        all_cycles(file.as_bytes(), make)?;
    }
    for file in SMALL.iter().map(|file| file.as_bytes()) {
        all_cycles(file, make)?;
        all_digits(file, make)?;
        for changed in with_each_byte(file).chain(with_each_number(file)).chain(with_each_line_moved(file)) {
            let (inputs, latches) = zeros(file);
            make(&Service::Simulate.writing(&[&changed, &inputs, &latches], vec![b'#'; 8]))?;
        }
    }
    longest(make)
}

/// The numbers of inputs and latches in a valid file's header, as zeros.
fn zeros(file: &[u8]) -> (Vec<u8>, Vec<u8>) {
    let header = String::from_utf8_lossy(file);
    let count = |place: usize| header.split([' ', '\n']).nth(place).and_then(|word| word.parse().ok());
    let [inputs, latches] = [2, 3].map(|place| vec![b'0'; count(place).expect("a header has counts")]);
    (inputs, latches)
}

/// The circuits with one line in each section: whichever variable is whose, and whatever the output, the next literal and the operands are.
fn all_with_one_of_each() -> Vec<String> {
    let mut files = Vec::new();
    for [input, latch, gate] in [[2, 4, 6], [2, 6, 4], [4, 2, 6], [4, 6, 2], [6, 2, 4], [6, 4, 2]] {
        for (next, output) in (0..8).flat_map(|next| (0..8).map(move |output| (next, output))) {
            let operands = (0..gate).flat_map(|left| (0..gate).map(move |right| (left, right)));
            files.extend(operands.map(|(left, right)| {
                format!("aag 3 1 1 1 1\n{input}\n{latch} {next}\n{output}\n{gate} {left} {right}\n")
            }));
        }
    }
    files
}

/// All digits of a valid circuit's inputs and latches.
fn all_cycles(file: &[u8], make: Make) -> Result<(), String> {
    let (inputs, latches) = zeros(file);
    for number in 0..1 << (inputs.len() + latches.len()) {
        let digits: Vec<u8> =
            (0..inputs.len() + latches.len()).map(|place| b'0' + (number >> place & 1) as u8).collect();
        let (inputs, latches) = digits.split_at(inputs.len());
        make(&Service::Simulate.writing(&[file, inputs, latches], vec![b'#'; 8]))?;
    }
    Ok(())
}

/// Each number of inputs and latches up to two more than there are, each with each room up to one byte more than is written, without and
/// with a byte that is no digit; and each byte in the place of each digit.
fn all_digits(file: &[u8], make: Make) -> Result<(), String> {
    let (inputs, latches) = zeros(file);
    let most = written(&Service::Simulate.of(&[file, &inputs, &latches])).map_or(0, |output| output.len()) + 1;
    let mut call = |inputs: &[u8], latches: &[u8], room: usize| {
        make(&Service::Simulate.writing(&[file, inputs, latches], vec![b'#'; room]))
    };
    for (i, l) in (0..=inputs.len() + 2).flat_map(|i| (0..=latches.len() + 2).map(move |l| (i, l))) {
        for room in 0..=most {
            let (ones, zeros) = (vec![b'1'; i], vec![b'0'; l]);
            call(&ones, &zeros, room)?;
            call(&[&ones[..], b"2"].concat(), &zeros, room)?;
            call(&ones, &[&zeros[..], b"/"].concat(), room)?;
        }
    }
    for byte in 0..=255 {
        for place in 0..inputs.len() {
            call(&with(&inputs, place..place + 1, &[byte]), &latches, most)?;
        }
        for place in 0..latches.len() {
            call(&inputs, &with(&latches, place..place + 1, &[byte]), most)?;
        }
    }
    Ok(())
}

/// Bytes with others in the place of some.
fn with(bytes: &[u8], place: Range<usize>, others: &[u8]) -> Vec<u8> {
    [&bytes[..place.start], others, &bytes[place.end..]].concat()
}

/// The file cut at each place, without each byte, and with each byte in the place of each and before each.
fn with_each_byte(file: &[u8]) -> impl Iterator<Item = Vec<u8>> + '_ {
    (0..=file.len()).flat_map(move |at| {
        let behind = at..(at + 1).min(file.len());
        let put = |byte: u8| [with(file, at..at, &[byte]), with(file, behind.clone(), &[byte])];
        let cut = [file[..at].to_vec(), with(file, behind.clone(), b"")];
        (0..=255).flat_map(put).chain(cut).collect::<Vec<_>>()
    })
}

/// The file with each number up to 19, with the greatest ones and with padded ones in the place of each number.
fn with_each_number(file: &[u8]) -> impl Iterator<Item = Vec<u8>> + '_ {
    let small = (0..20).map(|number| number.to_string());
    let others = ["32768", "65535", "65536", "99998", "99999", "100000", "4294967298", "00", "02", "00002", "000002"];
    let texts: Vec<String> = small.chain(others.map(str::to_string)).collect();
    places(file)
        .flat_map(move |at| texts.iter().map(|text| with(file, at.clone(), text.as_bytes())).collect::<Vec<_>>())
}

/// The file without each line, with each line twice, and with each two lines exchanged.
fn with_each_line_moved(file: &[u8]) -> impl Iterator<Item = Vec<u8>> + '_ {
    let lines: Vec<&[u8]> = file.split_inclusive(|byte| *byte == b'\n').collect();
    (0..lines.len()).flat_map(move |one| {
        let exchanged = (0..one).map(|other| {
            let mut lines = lines.clone();
            lines.swap(one, other);
            lines.concat()
        });
        let (before, behind) = lines.split_at(one);
        let moved = [[before, &behind[1..]].concat(), [before, &behind[..1], behind].concat()];
        exchanged.chain(moved.map(|lines| lines.concat())).collect::<Vec<_>>()
    })
}

/// Where the numbers of a file stand.
fn places(file: &[u8]) -> impl Iterator<Item = Range<usize>> + '_ {
    let mut behind = 0;
    file.chunk_by(|one, next| one.is_ascii_digit() == next.is_ascii_digit()).filter_map(move |part| {
        let start = behind;
        behind += part.len();
        part[0].is_ascii_digit().then_some(start..behind)
    })
}

/// As many outputs as a file has room for, and a byte more; and the longest list of gates that wait for one another, from the last on.
fn longest(make: Make) -> Result<(), String> {
    let outputs = format!("aag 0 0 0 32759 0\n{}", "1\n".repeat(32_759));
    for (file, room) in [(outputs.clone(), 32_759), (outputs.clone(), 32_758), (outputs + "\n", 32_759)] {
        make(&Service::Simulate.writing(&[file.as_bytes(), b"", b""], vec![b'#'; room]))?;
    }
    let gates: String = (2..5472).rev().map(|own| format!("{} {} 1\n", 2 * own, 2 * own - 1)).collect();
    let chain = format!("aag 5471 1 0 1 5470\n2\n10942\n{gates}");
    [b"0", b"1"]
        .into_iter()
        .try_for_each(|digit| make(&Service::Simulate.writing(&[chain.as_bytes(), digit, b""], vec![0])))
}

/// A random circuit: cycles of it, with outputs of all kinds; cycles with wrong digits and counts; cycles of it with faults.
pub fn random_circuit(random: &mut Random, make: Make) -> Result<(), String> {
    let lines = random_lines(random);
    for _ in 0..2 {
        let call = lines.cycle(random);
        with_outputs(random, call.clone(), make)?;
        make(&wrong_cycle(random, &call))?;
    }
    for _ in 0..3 {
        let mut call = lines.cycle(random);
        call.inputs[0] = match random.once_in(2) {
            true => damaged(random, &call.inputs[0]),
            false => with_numbers_changed(random, lines.clone()).into_bytes(),
        };
        with_outputs(random, call, make)?;
    }
    Ok(())
}

/// A valid circuit: mostly small, sometimes with some hundred lines, seldom as long as a file may be, or just longer. Which variables are
/// inputs, latches and gates is drawn; the lines of each section come in any order, or in rising order.
fn random_lines(random: &mut Random) -> Lines {
    let long = random.once_in(64);
    let most = match random.below(8) {
        _ if long => 3000,
        0 => 120,
        1 => 25,
        _ => 5,
    };
    let [inputs, latches, outputs, gates] = [(); 4].map(|()| random.between(0, most));
    let maximum = inputs + latches + gates;
    let mut literals: Vec<usize> = (1..=maximum).map(|variable| 2 * variable).collect();
    shuffle(random, &mut literals);
    let sorted = random.once_in(3);
    let mut taken = |count: usize| {
        let mut taken: Vec<usize> = literals.drain(..count).collect();
        if sorted {
            taken.sort();
        }
        taken
    };
    let (inputs, latches, gates) = (taken(inputs), taken(latches), taken(gates));
    let mut any = |end: usize| random.below(end);
    let mut lines = Lines {
        maximum,
        inputs: inputs.into_iter().map(|literal| [literal]).collect(),
        latches: latches.into_iter().map(|literal| [literal, any(2 * maximum + 2)]).collect(),
        outputs: (0..outputs).map(|_| [any(2 * maximum + 2)]).collect(),
        gates: gates.into_iter().map(|literal| [literal, any(literal), any(literal)]).collect(),
    };
    if long {
        fill(random, &mut lines);
    }
    lines
}

fn shuffle<T>(random: &mut Random, things: &mut [T]) {
    for place in (1..things.len()).rev() {
        things.swap(place, random.between(0, place));
    }
}

/// Takes gates away where the file is too long, and then adds outputs up to the most bytes that it may have, or a few less or more.
fn fill(random: &mut Random, lines: &mut Lines) {
    let goal = MOST_BYTES + 1 - random.below(4);
    while lines.to_string().len() + 400 > goal {
        // the last variables go, whosever they are
        let kept = 2 * (lines.maximum - lines.maximum.min(100));
        lines.inputs.retain(|[literal]| *literal <= kept);
        lines.latches.retain(|[literal, _]| *literal <= kept);
        lines.gates.retain(|[literal, ..]| *literal <= kept);
        lines.latches.iter_mut().for_each(|[_, next]| *next = (*next).min(kept + 1));
        lines.outputs.iter_mut().for_each(|[literal]| *literal = (*literal).min(kept + 1));
        lines.maximum = lines.inputs.len() + lines.latches.len() + lines.gates.len();
    }
    let highest = 2 * lines.maximum + 1;
    let mut missing = goal - lines.to_string().len();
    while missing > 40 {
        let literal = random.between(0, highest);
        missing -= literal.to_string().len() + 1;
        lines.outputs.push([literal]);
    }
    // exactly, with the digits that the header's count of outputs has by now
    while goal > lines.to_string().len() + 1 {
        let odd = (goal - lines.to_string().len()) % 2 == 1;
        lines.outputs.push([if odd { highest.min(10) } else { random.between(0, highest.min(9)) }]);
    }
}

/// The file with one or two numbers of its lines changed to those just beside what is allowed: another variable's, 0, 1, one higher, its
/// line's own, or those about the maximum; or with another count in the header.
fn with_numbers_changed(random: &mut Random, mut lines: Lines) -> String {
    let maximum = lines.maximum;
    for _ in 0..random.between(1, 2) {
        let mut numbers = lines.numbers();
        if numbers.is_empty() || random.once_in(8) {
            lines.maximum = if random.once_in(2) { maximum + 1 } else { maximum.saturating_sub(1) };
            continue;
        }
        let (at, other) = (random.below(numbers.len()), random.below(numbers.len()));
        let (own, other) = (*numbers[at], *numbers[other]);
        let before = if at > 0 { *numbers[at - 1] } else { own };
        *numbers[at] = match random.below(8) {
            0 => other,
            1 => before,
            2 => before + 1,
            3 => own + 1,
            4 => random.below(2),
            5 => 2 * maximum + random.below(4),
            6 => *random.pick(&[&99_998, &99_999, &100_000]),
            _ => random.below(2 * maximum + 4),
        };
    }
    lines.to_string()
}

/// The cycle with a byte that is no digit, or a digit too many or too few, in its inputs or its latches or both.
fn wrong_cycle(random: &mut Random, call: &Call) -> Call {
    let mut call = call.clone();
    for _ in 0..random.between(1, 2) {
        let input = &mut call.inputs[random.between(1, 2)];
        let at = random.below(input.len().max(1));
        match random.below(3) {
            0 => input.push(b'0'),
            1 => drop(input.pop()),
            _ => input.iter_mut().skip(at).take(1).for_each(|byte| *byte = random.byte()),
        }
    }
    let room = random.below(20);
    call.output = random.bytes(room);
    call
}

/// The circuits of random rules as an implementation writes them, each simulated by it from latches at 0 with the latches that it leaves, beside
/// its steps from a fresh start with the pendings that these leave: the outputs of each cycle must be the digits of its step, and the
/// next latches the pendings. The number of cycles.
pub fn hold_to_steps(implementation: Implementation, seed: u64, rules: u64) -> Result<u64, String> {
    const CYCLES: u64 = 6;
    for number in 0..rules {
        let random = &mut Random::new(seed.wrapping_mul(1 << 32).wrapping_add(number));
        let most = if random.once_in(16) { Size::MOST } else { Size { signals: 4, rows: 10, cycles: 1 } };
        let size = Size::up_to(random, most);
        let rule = random_rule(random, size);
        let rows = second::rows(&rule).expect("the rule is valid");
        let circuit = wholly(implementation, &Service::Circuit.of(&[&rule]))?;
        let (mut pendings, mut latches) = (vec![b'0'; rows], vec![b'0'; rows]);
        for _ in 0..CYCLES {
            let ones = random.between(1, 7);
            let (activators, signals) = (random.digits(rows, ones), random.digits(size.signals, 4));
            let step = Service::Step.of(&[&rule, &pendings, activators.as_bytes(), signals.as_bytes()]);
            let cycle = Service::Simulate.of(&[&circuit, (signals + &activators).as_bytes(), &latches]);
            let (stepped, simulated) = (wholly(implementation, &step)?, wholly(implementation, &cycle)?);
            pendings = stepped[2 * rows..].to_vec();
            latches = simulated[3 * rows..].to_vec();
            if simulated[..3 * rows] != stepped || latches != pendings {
                let [stepped, simulated] = [stepped, simulated].map(|digits| digits.escape_ascii().to_string());
                return Err(format!("not the step: {cycle}gives {simulated}\n{step}gives {stepped}"));
            }
        }
    }
    Ok(rules * CYCLES)
}

/// What an implementation writes, given room.
fn wholly(implementation: Implementation, call: &Call) -> Result<Vec<u8>, String> {
    let outcome = implementation(&Call { output: vec![0; citronhelm::MOST_CIRCUIT], ..call.clone() });
    match outcome.answer {
        Answer::Number(length) => Ok(outcome.output[..length].to_vec()),
        _ => Err(format!("not answered: {call}{outcome}")),
    }
}

#[cfg(test)]
mod tests {
    use super::*;
    use crate::call::Outcome;
    use crate::implementations::by_second;
    use std::collections::BTreeSet;

    /// The section that a line of a file with these counts stands in, from 0 for the header; 5 for what is behind the gates.
    fn section(counts: [usize; 4], line: u32) -> usize {
        let ends = counts.iter().scan(1, |end, count| {
            *end += count;
            Some(*end)
        });
        std::iter::once(1).chain(ends).take_while(|end| *end < line as usize).count()
    }

    /// The first small circuit has faults of all kinds at lines of all kinds: of bytes, of numbers, of lines, and surplus.
    #[test]
    fn faults_come_in_every_section() {
        let file = SMALL[0].as_bytes();
        let (inputs, latches) = zeros(file);
        let sections = |files: &mut dyn Iterator<Item = Vec<u8>>| {
            let answer = |file: &[u8]| by_second(&Service::Simulate.of(&[file, &inputs, &latches])).answer;
            let refused = files.filter_map(|file| match answer(&file) {
                Answer::Refused(2, 1, line) => Some(section([2, 2, 3, 3], line)),
                _ => None,
            });
            refused.collect::<BTreeSet<_>>().into_iter().collect::<Vec<_>>()
        };
        assert_eq!(sections(&mut with_each_byte(file)), [0, 1, 2, 3, 4, 5]);
        assert_eq!(sections(&mut with_each_number(file)), [0, 1, 2, 3, 4]);
        assert_eq!(sections(&mut with_each_line_moved(file)), [0, 1, 2, 3, 4, 5]);
    }

    #[test]
    fn random_circuits_are_valid() {
        let mut random = Random::new(0);
        let (mut refused, mut long) = (0, 0);
        for _ in 0..2000 {
            let file = random_lines(&mut random).to_string();
            match second::read_circuit(file.as_bytes()) {
                Ok(()) => long += usize::from(file.len() > MOST_BYTES - 4),
                Err(refusal) => {
                    assert_eq!((refusal.number, file.len()), (1, MOST_BYTES + 1), "{refusal}");
                    refused += 1;
                }
            }
        }
        assert!(refused > 2 && long > 5, "{refused} {long}");
    }

    #[test]
    fn changed_numbers_are_mostly_refused() {
        let mut random = Random::new(0);
        let mut refused = |_| {
            let lines = random_lines(&mut random);
            second::read_circuit(with_numbers_changed(&mut random, lines).as_bytes()).is_err()
        };
        let refused = (0..1000).filter(|number| refused(*number)).count();
        assert!((500..950).contains(&refused), "{refused}");
    }

    /// A latch that keeps what it had.
    fn stuck(call: &Call) -> Outcome {
        let mut outcome = by_second(call);
        if let (Service::Simulate, Answer::Number(length)) = (call.service, &outcome.answer) {
            let latches = call.inputs[2].len();
            outcome.output[length - latches..*length].copy_from_slice(&call.inputs[2]);
        }
        outcome
    }

    #[test]
    fn circuits_that_are_not_the_steps_are_told() {
        assert_eq!(hold_to_steps(by_second, 1, 200), Ok(1200));
        assert!(hold_to_steps(stuck, 1, 200).unwrap_err().starts_with("not the step: Simulate"));
    }
}
