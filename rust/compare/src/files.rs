//! Valid files: from their parts, and random ones.

use crate::random::Random;

/// A rule file with these rows.
pub fn rule(signals: usize, rows: &[impl AsRef<str>]) -> Vec<u8> {
    let lines: String = (1..).zip(rows).map(|(own, row)| format!("r{own}={}\n", row.as_ref())).collect();
    format!("format=1\nsignals={signals}\nrows={}\n{lines}", rows.len()).into_bytes()
}

/// A take file with these cycles; `start` is the value of its loop line.
pub fn take(start: &str, cycles: &[impl AsRef<str>]) -> Vec<u8> {
    let lines: String = (0..).zip(cycles).map(|(cycle, digits)| format!("c{cycle}={}\n", digits.as_ref())).collect();
    let signals = cycles[0].as_ref().len();
    format!("format=1\nsignals={signals}\ncycles={}\nloop={start}\n{lines}", cycles.len()).into_bytes()
}

/// A sheet file with these rows.
pub fn sheet(rows: &[impl AsRef<str>]) -> Vec<u8> {
    let lines: String = (1..).zip(rows).map(|(row, digits)| format!("z{row}={}\n", digits.as_ref())).collect();
    format!("format=1\nrows={}\ncycles={}\n{lines}", rows.len(), rows[0].as_ref().len()).into_bytes()
}

/// The sizes of random files.
#[derive(Clone, Copy, Debug)]
pub struct Size {
    pub signals: usize,
    pub rows: usize,
    pub cycles: usize,
}

impl Size {
    /// The most that the formats allow.
    pub const MOST: Size = Size { signals: 32, rows: 64, cycles: 256 };

    /// Any size up to `most`.
    pub fn up_to(random: &mut Random, most: Size) -> Size {
        Size {
            signals: random.between(1, most.signals),
            rows: random.between(1, most.rows),
            cycles: random.between(1, most.cycles),
        }
    }
}

/// A random rule. In some, every row behind the first ones has the row before as an operand, so that no row is left out; and some
/// end in a row and its negation, so that every row below is reached with both signs. Both together, without another `not`,
/// give the largest normal forms.
pub fn random_rule(random: &mut Random, size: Size) -> Vec<u8> {
    let chained = random.once_in(2);
    let doubled = size.rows > 3 && random.once_in(4);
    let free = if doubled { size.rows - 2 } else { size.rows };
    let unary = if chained && doubled { WITHOUT_NOT } else { UNARY };
    let mut rows: Vec<String> = Vec::new();
    for own in 1..=free {
        let leaf = own == 1 || if chained { own <= size.rows / 8 } else { random.once_in(4) };
        let row = if leaf { random_leaf(random, size.signals) } else { random_operation(random, own, chained, unary) };
        rows.push(row);
    }
    if doubled {
        rows.push(format!("not {free}"));
        rows.push(format!("{} {free} {}", random.pick(BINARY), free + 1));
    }
    rule(size.signals, &rows)
}

/// The words of rows with one operand, all or without `not`, and of those with two.
pub const UNARY: &[&str] = &["not", "next", "always", "ever"];
const WITHOUT_NOT: &[&str] = &["next", "always", "ever"];
pub const BINARY: &[&str] = &["and", "or", "weak", "until", "release", "srelease"];

fn random_leaf(random: &mut Random, signals: usize) -> String {
    match random.below(12) {
        0 => "true".to_string(),
        1 => "false".to_string(),
        2..=6 => format!("nsig {}", random.between(1, signals)),
        _ => format!("sig {}", random.between(1, signals)),
    }
}

/// A row with operands: the row before half the time, and always where the rule is chained.
fn random_operation(random: &mut Random, own: usize, chained: bool, unary: &[&str]) -> String {
    let a = if chained || random.once_in(2) { own - 1 } else { random.between(1, own - 1) };
    let b = random.between(1, own - 1);
    match random.below(4) {
        0 => format!("{} {a}", random.pick(unary)),
        1 => format!("{} {b} {a}", random.pick(BINARY)),
        _ => format!("{} {a} {b}", random.pick(BINARY)),
    }
}

/// A random take, open once in two.
pub fn random_take(random: &mut Random, size: Size) -> Vec<u8> {
    let cycles = take_cycles(random, size);
    let start = random_cycle(random, size.cycles).to_string();
    take(if random.once_in(2) { "none" } else { &start }, &cycles)
}

/// The cycles of a random take. In some, each cycle is drawn anew; in some, most cycles repeat the one before; in some, all are alike but
/// for a few, so that much depends on one cycle.
pub fn take_cycles(random: &mut Random, size: Size) -> Vec<String> {
    let (ones, style) = (random.between(1, 7), random.below(3));
    let mut cycles = vec![random.digits(size.signals, ones)];
    while cycles.len() < size.cycles {
        let anew = style == 0 || style == 1 && random.once_in(8);
        cycles.push(if anew { random.digits(size.signals, ones) } else { cycles[cycles.len() - 1].clone() });
    }
    for _ in 0..random.between(1, 3) {
        let cycle = random_cycle(random, size.cycles);
        cycles[cycle] = random.digits(size.signals, ones);
    }
    cycles
}

/// Any cycle, or one beside a multiple of 64, counted from the front or from the back: there words of bits may end.
fn random_cycle(random: &mut Random, cycles: usize) -> usize {
    let edge = (64 * random.below(5)).saturating_sub(random.below(2)).min(cycles - 1);
    match random.below(4) {
        0 => edge,
        1 => cycles - 1 - edge,
        _ => random.below(cycles),
    }
}

/// A random sheet with so many rows, its root set in cycle 0 more often than not.
pub fn random_sheet(random: &mut Random, rows: usize, cycles: usize) -> Vec<u8> {
    let ones = random.between(0, 8);
    let mut lines: Vec<String> = (0..rows).map(|_| random.digits(cycles, ones)).collect();
    if !random.once_in(8) {
        lines[rows - 1].replace_range(..1, "1");
    }
    sheet(&lines)
}

#[cfg(test)]
mod tests {
    use super::*;

    #[test]
    fn the_largest_normal_form_comes() {
        let mut random = Random::new(0);
        let most = (0..200).map(|_| second::rows(&random_rule(&mut random, Size::MOST)).unwrap()).max();
        assert_eq!(most, Some(125));
    }
}
