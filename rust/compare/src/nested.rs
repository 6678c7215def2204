//! Rules with many rows on one branch that look ahead, on looped takes. What such a row is at a cycle rests on what the row below it is all
//! around the loop: truth that is worked out by going around the loop needs the more rounds the more of them there are.

use crate::call::{Call, Service};
use crate::files::{random_sheet, rule, take, take_cycles, Size, BINARY};
use crate::padding::perhaps_padded;
use crate::random::Random;
use crate::trials::{rows, with_digits_changed, written, Make};

/// The words of rows that look ahead: with one operand, and with two.
const UNARY: &[&str] = &["next", "always", "ever"];
const TEMPORAL: &[&str] = &["weak", "until", "release", "srelease"];

/// So many runs, the same calls from the same seed.
pub fn run(seed: u64, runs: u64, make: Make) -> Result<(), String> {
    (0..runs).try_for_each(|run| trial(&mut Random::new(seed.wrapping_mul(1 << 32).wrapping_add(run)), make))
}

/// One run: the verdict, the sheet with its length, and the check of the sheet, or of a random one if there is none, as it is and with
/// changed digits.
fn trial(random: &mut Random, make: Make) -> Result<(), String> {
    let size = random_size(random);
    let rule = nested_rule(random, size);
    let rule = perhaps_padded(random, rule);
    let take = looped_take(random, size);
    for service in [Service::Judge, Service::JudgeLooped, Service::SheetLength] {
        make(&service.of(&[&rule, &take]))?;
    }
    let call = Service::MakeSheet.of(&[&rule, &take]);
    let made = written(&call);
    let room = made.as_ref().map_or(0, Vec::len);
    make(&Call { output: random.bytes(room), ..call })?;
    let sheet = made.unwrap_or_else(|| random_sheet(random, rows(&rule), size.cycles));
    for sheet in [with_digits_changed(random, &sheet), sheet] {
        make(&Service::CheckSheet.of(&[&rule, &take, &sheet]))?;
    }
    Ok(())
}

/// A few signals and at least two rows; mostly few rows and cycles, sometimes the most rows, or many cycles.
fn random_size(random: &mut Random) -> Size {
    let (signals, most_rows, most_cycles) = (random.between(1, 3), Size::MOST.rows, Size::MOST.cycles);
    let (rows, cycles) = match random.below(64) {
        0 => (random.between(2, most_rows), random.between(1, most_cycles)),
        1..=4 => (most_rows, random.between(1, 6)),
        5..=8 => (random.between(2, 8), random.between(1, most_cycles)),
        _ => (random.between(2, 16), random.between(1, 6)),
    };
    Size { signals, rows, cycles }
}

/// A chain, in which every row behind the leaves has the row before as an operand; or a tree, in which it has the next two that no row has
/// yet. Some chains are of two words in turn, or of one; in the others one word is often.
fn nested_rule(random: &mut Random, size: Size) -> Vec<u8> {
    let tree = random.once_in(6);
    let leaves = if tree { size.rows.div_ceil(2) } else { random.between(1, size.rows.min(4) - 1) };
    let in_turn = random.once_in(4).then(|| [random.pick(UNARY), random.pick(UNARY)]);
    let often = random.pick(UNARY);
    let mut lines: Vec<String> = Vec::new();
    for own in 1..=size.rows {
        lines.push(match own.checked_sub(leaves) {
            None | Some(0) => format!("{} {}", random.pick(&["sig", "nsig"]), random.between(1, size.signals)),
            Some(above) if tree => tree_row(random, own, above),
            Some(_) => match in_turn {
                Some(words) => format!("{} {}", words[own % 2], own - 1),
                None => chain_row(random, own, often),
            },
        });
    }
    rule(size.signals, &lines)
}

fn tree_row(random: &mut Random, own: usize, above: usize) -> String {
    let (a, b) = (2 * above - 1, (2 * above).min(own - 1));
    let words = if random.once_in(6) { BINARY } else { TEMPORAL };
    format!("{} {a} {b}", random.pick(words))
}

/// A row over the one before, and any other where it has two operands.
fn chain_row(random: &mut Random, own: usize, often: &str) -> String {
    let (a, b) = (own - 1, random.between(1, own - 1));
    match random.below(12) {
        0 => format!("not {a}"),
        1 => format!("{} {a} {b}", random.pick(BINARY)),
        2..=4 => format!("{} {a} {b}", random.pick(TEMPORAL)),
        5 | 6 => format!("{} {b} {a}", random.pick(TEMPORAL)),
        7 | 8 => format!("{} {a}", random.pick(UNARY)),
        _ => format!("{often} {a}"),
    }
}

/// A take whose loop begins at its first cycle, at its last or at any.
fn looped_take(random: &mut Random, size: Size) -> Vec<u8> {
    let cycles = take_cycles(random, size);
    let start = match random.below(4) {
        0 => 0,
        1 => size.cycles - 1,
        _ => random.below(size.cycles),
    };
    take(&start.to_string(), &cycles)
}
