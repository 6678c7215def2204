//! Random calls of every service.

use crate::call::{Answer, Call, Service};
use crate::circuits::random_circuit;
use crate::damage::damaged;
use crate::files::{random_rule, random_sheet, random_take, Size};
use crate::implementations::by_second;
use crate::padding::perhaps_padded;
use crate::random::Random;
use crate::runs::random_run;

/// What is done with each call.
pub type Make<'a> = &'a mut dyn FnMut(&Call) -> Result<(), String>;

/// A rule, a take and a sheet.
struct Files {
    rule: Vec<u8>,
    take: Vec<u8>,
    sheet: Vec<u8>,
}

/// So many runs, the same calls from the same seed.
pub fn random_calls(seed: u64, runs: u64, make: Make) -> Result<(), String> {
    (0..runs).try_for_each(|run| trial(&mut Random::new(seed.wrapping_mul(1 << 32).wrapping_add(run)), make))
}

/// One run: random files, calls of every service on them and on damaged copies, steps, and now and then a run of the rule, or a circuit
/// that is no rule's.
fn trial(random: &mut Random, make: Make) -> Result<(), String> {
    let size = random_size(random);
    let files = random_files(random, size);
    on_files(random, &files, make)?;
    for _ in 0..3 {
        let sheet = with_digits_changed(random, &files.sheet);
        make(&Service::CheckSheet.of(&[&files.rule, &files.take, &sheet]))?;
    }
    for _ in 0..2 {
        let files = damaged_files(random, &files);
        on_files(random, &files, make)?;
        make(&Service::Step.of(&[&files.rule, b"", b"", b""]))?;
        make(&Service::RunBegin.of(&[&files.rule]))?;
    }
    steps(random, &files.rule, size.signals, make)?;
    if random.once_in(4) {
        random_run(random, &files.rule, make)?;
    }
    if random.once_in(4) {
        random_circuit(random, make)?;
    }
    Ok(())
}

/// Mostly small, sometimes with many cycles or of any size, seldom of full size.
fn random_size(random: &mut Random) -> Size {
    match random.below(128) {
        0 => Size::MOST,
        1 => Size::up_to(random, Size::MOST),
        2..=16 => Size::up_to(random, Size { signals: 8, rows: 24, cycles: 32 }),
        17..=32 => Size::up_to(random, Size { signals: 3, rows: 8, cycles: 256 }),
        _ => Size::up_to(random, Size { signals: 3, rows: 8, cycles: 6 }),
    }
}

/// A rule, a take that seldom has other signals, and the sheet that is made or a random one, seldom of another size; each may be padded.
fn random_files(random: &mut Random, size: Size) -> Files {
    let rule = random_rule(random, size);
    let rule = perhaps_padded(random, rule);
    let signals = if random.once_in(16) { random.between(1, 32) } else { size.signals };
    let take = random_take(random, Size { signals, ..size });
    let take = perhaps_padded(random, take);
    let rows = rows(&rule);
    let sheet = match written(&Service::MakeSheet.of(&[&rule, &take])) {
        Some(made) if !random.once_in(4) => made,
        _ if random.once_in(64) => random_sheet(random, 128, 256),
        _ if random.once_in(16) => random_sheet(random, rows + 1, size.cycles),
        _ => random_sheet(random, rows, size.cycles),
    };
    let sheet = perhaps_padded(random, sheet);
    Files { rule, take, sheet }
}

/// At least one of the files damaged, mostly just one.
fn damaged_files(random: &mut Random, files: &Files) -> Files {
    let certain = random.below(3);
    let mut perhaps = |number: usize, file: &Vec<u8>| match number == certain || random.once_in(8) {
        true => damaged(random, file),
        false => file.clone(),
    };
    Files { rule: perhaps(0, &files.rule), take: perhaps(1, &files.take), sheet: perhaps(2, &files.sheet) }
}

/// Every service but step, those of runs and the simulation of circuits, on three files.
fn on_files(random: &mut Random, files: &Files, make: Make) -> Result<(), String> {
    let Files { rule, take, sheet } = files;
    for service in [Service::ReadRule, Service::Bound, Service::Rows] {
        make(&service.of(&[rule]))?;
    }
    make(&Service::ReadTake.of(&[take]))?;
    make(&Service::ReadSheet.of(&[sheet]))?;
    for negated in [false, true] {
        let of = |service: Service| Call { negated, ..service.of(&[rule]) };
        make(&of(Service::NormalLength))?;
        with_outputs(random, of(Service::Normal), make)?;
    }
    for service in [Service::Judge, Service::JudgeLooped, Service::JudgeOpen] {
        make(&service.of(&[rule, take]))?;
    }
    with_outputs(random, Service::JudgeText.of(&[rule, take]), make)?;
    with_outputs(random, Service::Circuit.of(&[rule]), make)?;
    make(&Service::SheetLength.of(&[rule, take]))?;
    with_outputs(random, Service::MakeSheet.of(&[rule, take]), make)?;
    make(&Service::CheckSheet.of(&[rule, take, sheet]))
}

/// A call with random outputs: where something is written, one that is exact, one that is one byte short, a longer one and any
/// shorter one.
pub fn with_outputs(random: &mut Random, call: Call, make: Make) -> Result<(), String> {
    let lengths = match written(&call).map(|output| output.len()) {
        Some(0) => vec![0, random.between(1, 40)],
        Some(length) => vec![length, length - 1, length + random.between(1, 40), random.below(length)],
        None => vec![random.below(100)],
    };
    for length in lengths {
        make(&Call { output: random.bytes(length), ..call.clone() })?;
    }
    Ok(())
}

/// A few cycles of the monitors from a fresh start, as steps and by their circuit, each with some wrong calls beside it.
fn steps(random: &mut Random, rule: &[u8], signals: usize, make: Make) -> Result<(), String> {
    let rows = rows(rule);
    let ones = random.between(0, 8);
    let circuit = written(&Service::Circuit.of(&[rule])).expect("the rule is valid");
    let mut pendings = "0".repeat(rows).into_bytes();
    for _ in 0..4 {
        let activators = random.digits(rows, ones).into_bytes();
        let signals = random.digits(signals, 4).into_bytes();
        let call = Service::Step.of(&[rule, &pendings, &activators, &signals]);
        with_outputs(random, call.clone(), make)?;
        make(&wrong_step(random, &call))?;
        let inputs = [signals, activators].concat();
        with_outputs(random, Service::Simulate.of(&[&circuit, &inputs, &pendings]), make)?;
        let given = written(&call).expect("a step with the right lengths is answered");
        pendings = given[2 * rows..].to_vec();
    }
    let any = random.digits(rows, 4).into_bytes();
    with_outputs(random, Service::Step.of(&[rule, &any, &any, &vec![b'1'; signals]]), make)
}

/// The step with a byte that is no digit, or a digit too many or too few, in one or more of its inputs.
fn wrong_step(random: &mut Random, call: &Call) -> Call {
    let mut call = call.clone();
    for _ in 0..random.between(1, 2) {
        let input = &mut call.inputs[random.between(1, 3)];
        let at = random.below(input.len().max(1));
        match random.below(3) {
            0 => input.push(b'0'),
            1 => drop(input.pop()),
            _ => input.iter_mut().skip(at).take(1).for_each(|byte| *byte = random.byte()),
        }
    }
    call.output = random.bytes(3 * call.inputs[1].len());
    call
}

/// The sheet with one to three rows changed in one of three ways: a digit turned; the last digit set, which is felt in the next
/// round; all digits cleared, of rows that are not the root's.
pub fn with_digits_changed(random: &mut Random, sheet: &[u8]) -> Vec<u8> {
    let mut lines: Vec<Vec<u8>> = sheet.split_inclusive(|byte| *byte == b'\n').map(<[u8]>::to_vec).collect();
    let (first, root) = (3, lines.len() - 1);
    let way = random.below(if first < root { 3 } else { 2 });
    for _ in 0..random.between(1, 3) {
        let line = &mut lines[random.between(first, if way == 2 { root - 1 } else { root })];
        let start = 1 + line.iter().position(|byte| *byte == b'=').expect("each line has a key");
        let last = line.len() - 2;
        match way {
            0 => line[random.between(start, last)] ^= 1,
            1 => line[last] = b'1',
            _ => line[start..=last].fill(b'0'),
        }
    }
    lines.concat()
}

/// What the second implementation writes for a call, given room: no service writes more than a sheet can have.
pub fn written(call: &Call) -> Option<Vec<u8>> {
    let outcome = by_second(&Call { output: vec![0; citronhelm::MOST_SHEET], ..call.clone() });
    match outcome.answer {
        Answer::Number(length) => Some(outcome.output[..length].to_vec()),
        _ => None,
    }
}

/// The rows of a valid rule's normal form.
pub fn rows(rule: &[u8]) -> usize {
    second::rows(rule).expect("the rule is valid")
}
