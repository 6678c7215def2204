//! Circuits: and-inverter graphs, as ASCII AIGER without symbols and comments.

use crate::lines::{number, Lines};
use crate::refusal::Refusal;
use std::collections::BTreeSet;
use std::fmt;

/// A circuit. Its numbers are literals: twice the index of a variable, and one more where it is negated; 0 is false, 1 is true. The
/// inputs, latches and gates define each variable from 1 on once.
#[derive(Clone, Debug, PartialEq, Eq)]
pub struct Circuit {
    pub inputs: Vec<usize>,
    pub latches: Vec<Latch>,
    pub outputs: Vec<usize>,
    pub gates: Vec<Gate>,
}

/// A latch: its own literal, and the one whose value it has in the next cycle.
#[derive(Clone, Copy, Debug, PartialEq, Eq)]
pub struct Latch {
    pub literal: usize,
    pub next: usize,
}

/// An and-gate: its own literal, and those of its operands, which are lower.
#[derive(Clone, Copy, Debug, PartialEq, Eq)]
pub struct Gate {
    pub literal: usize,
    pub operands: [usize; 2],
}

impl Circuit {
    /// Reads a circuit file.
    pub fn read(bytes: &[u8]) -> Result<Circuit, Refusal> {
        let mut lines = Lines::all(1, bytes)?;
        let [maximum, inputs, latches, outputs, gates] = lines.read(|line| numbers(line.strip_prefix("aag ")?))?;
        lines.require(maximum == inputs + latches + gates, 2)?;
        let mut undefined: BTreeSet<usize> = (1..=maximum).map(|variable| 2 * variable).collect();
        let literals = 0..=2 * maximum + 1;
        let inputs = section(&mut lines, inputs, |[literal]| undefined.remove(literal))?;
        let latches =
            section(&mut lines, latches, |[literal, next]| undefined.remove(literal) && literals.contains(next))?;
        let outputs = section(&mut lines, outputs, |[literal]| literals.contains(literal))?;
        let gates = section(&mut lines, gates, |[literal, operands @ ..]: &[usize; 3]| {
            undefined.remove(literal) && operands.iter().all(|operand| operand < literal)
        })?;
        lines.end()?;
        Ok(Circuit {
            inputs: inputs.concat(),
            latches: latches.into_iter().map(|[literal, next]| Latch { literal, next }).collect(),
            outputs: outputs.concat(),
            gates: gates.into_iter().map(|[literal, operands @ ..]| Gate { literal, operands }).collect(),
        })
    }
}

/// Reads the lines of a section, so many, with as many numbers each as `possible` takes; it must be so of each.
fn section<const N: usize>(
    lines: &mut Lines,
    count: usize,
    mut possible: impl FnMut(&[usize; N]) -> bool,
) -> Result<Vec<[usize; N]>, Refusal> {
    (0..count).map(|_| lines.read(|line| numbers(line).filter(&mut possible))).collect()
}

/// As many numbers as are asked for, parted by single spaces.
fn numbers<const N: usize>(text: &str) -> Option<[usize; N]> {
    let numbers: Option<Vec<usize>> = text.split(' ').map(unpadded).collect();
    numbers?.try_into().ok()
}

/// A number of one to five digits as it is written, without leading zeros.
fn unpadded(text: &str) -> Option<usize> {
    number(text).filter(|value| value.to_string() == text)
}

/// The circuit's file.
impl fmt::Display for Circuit {
    fn fmt(&self, f: &mut fmt::Formatter<'_>) -> fmt::Result {
        let Circuit { inputs, latches, outputs, gates } = self;
        let [i, l, o, a] = [inputs.len(), latches.len(), outputs.len(), gates.len()];
        writeln!(f, "aag {} {i} {l} {o} {a}", i + l + a)?;
        inputs.iter().try_for_each(|literal| writeln!(f, "{literal}"))?;
        latches.iter().try_for_each(|Latch { literal, next }| writeln!(f, "{literal} {next}"))?;
        outputs.iter().try_for_each(|literal| writeln!(f, "{literal}"))?;
        gates.iter().try_for_each(|Gate { literal, operands: [left, right] }| writeln!(f, "{literal} {left} {right}"))
    }
}

#[cfg(test)]
mod tests {
    use super::*;
    use crate::cases::refused;

    const OR: &str = "aag 3 2 0 1 1\n2\n4\n7\n6 3 5\n";
    const TOGGLE: &str = "aag 1 0 1 2 0\n2 3\n2\n3\n";

    /// Inputs, latches and gates out of order, and operands in either order.
    const MIXED: &str = "aag 7 2 2 3 3\n14\n2\n6 15\n4 13\n0\n15\n11\n12 10 9\n10 4 7\n8 2 0\n";

    /// Reads a file whose lines are parted by ` / ` here.
    fn read(lines: &str) -> Result<Circuit, Refusal> {
        Circuit::read(format!("{}\n", lines.replace(" / ", "\n")).as_bytes())
    }

    #[test]
    fn what_is_read() {
        let gate = Gate { literal: 6, operands: [3, 5] };
        let or = Circuit { inputs: vec![2, 4], latches: vec![], outputs: vec![7], gates: vec![gate] };
        assert_eq!(Circuit::read(OR.as_bytes()), Ok(or));
        let latch = Latch { literal: 2, next: 3 };
        let toggle = Circuit { inputs: vec![], latches: vec![latch], outputs: vec![2, 3], gates: vec![] };
        assert_eq!(Circuit::read(TOGGLE.as_bytes()), Ok(toggle));
        let nothing = Circuit { inputs: vec![], latches: vec![], outputs: vec![], gates: vec![] };
        assert_eq!(read("aag 0 0 0 0 0"), Ok(nothing));
        let mixed = Circuit {
            inputs: vec![14, 2],
            latches: vec![Latch { literal: 6, next: 15 }, Latch { literal: 4, next: 13 }],
            outputs: vec![0, 15, 11],
            gates: [[12, 10, 9], [10, 4, 7], [8, 2, 0]]
                .map(|[literal, operands @ ..]| Gate { literal, operands })
                .to_vec(),
        };
        assert_eq!(Circuit::read(MIXED.as_bytes()), Ok(mixed));
    }

    /// A file with any one byte other than it is, away or put in: what is read of it is written as the same bytes.
    #[test]
    fn what_is_accepted_is_written_so() {
        let mut accepted = 0;
        let mut tried = |file: Vec<u8>| {
            if let Ok(circuit) = Circuit::read(&file) {
                assert_eq!(circuit.to_string().as_bytes(), file);
                accepted += 1;
            }
        };
        for file in [OR, TOGGLE, MIXED].map(str::as_bytes) {
            tried(file.to_vec());
            for place in 0..=file.len() {
                let (before, behind) = file.split_at(place);
                tried([before, behind.get(1..).unwrap_or_default()].concat());
                for byte in 0..=u8::MAX {
                    tried([before, &[byte], behind.get(1..).unwrap_or_default()].concat());
                    tried([before, &[byte], behind].concat());
                }
            }
        }
        assert!(accepted > 100, "{accepted}");
    }

    #[test]
    fn headers_at_fault() {
        for header in [
            "",
            "aag",
            "Aag 0 0 0 0 0",
            "aig 0 0 0 0 0",
            " aag 0 0 0 0 0",
            "aag  0 0 0 0 0",
            "aag\t0 0 0 0 0",
            "aag 0 0 0 0 0 ",
            "aag 0 0 0 0 0\r",
            "aag 0 0 0 0",
            "aag 0 0 0 0 0 0",
            "aag 0 0 0 00 0",
            "aag 0 0 0 100000 0",
            "aag +0 0 0 0 0",
            "aag 1 0 0 0 0",
            "aag 0 1 0 0 0",
            "aag 0 0 1 0 0",
            "aag 0 0 0 0 1",
        ] {
            assert_eq!(read(header), refused(2, 1, 1), "{header}");
        }
        assert_eq!(Circuit::read(b""), refused(2, 1, 1));
        assert_eq!(Circuit::read(b"aag 0 0 0 0 0"), refused(2, 1, 1));
        assert_eq!(Circuit::read(b"aag 0 0 0 0 0\xff\n"), refused(2, 1, 1));
        assert_eq!(Circuit::read(&[b'x'; 65_537]), refused(1, 1, 0));
    }

    #[test]
    fn lines_at_fault() {
        for (lines, line) in [
            ("aag 1 1 0 0 0 / 0", 2),
            ("aag 1 1 0 0 0 / 3", 2),
            ("aag 1 1 0 0 0 / 4", 2),
            ("aag 1 1 0 0 0 / 02", 2),
            ("aag 1 1 0 0 0 / 2 2", 2),
            ("aag 2 2 0 0 0 / 2 / 2", 3),
            ("aag 2 1 1 0 0 / 2 / 2 0", 3),
            ("aag 1 0 1 0 0 / 2", 2),
            ("aag 1 0 1 0 0 / 2 4", 2),
            ("aag 1 0 1 0 0 / 2 0 0", 2),
            ("aag 0 0 0 1 0 / 2", 2),
            ("aag 1 0 0 0 1 / 3 0 0", 2),
            ("aag 2 1 0 0 1 / 4 / 4 0 0", 3),
            ("aag 2 0 0 0 2 / 4 0 0 / 4 0 0", 3),
            ("aag 2 1 0 0 1 / 2 / 4 5 0", 3),
            ("aag 2 1 0 0 1 / 2 / 4 0 5", 3),
            ("aag 2 1 0 0 1 / 2 / 4 4 0", 3),
            ("aag 2 1 0 0 1 / 2 / 4 0 4", 3),
            ("aag 1 0 0 0 1 / 2 0", 2),
            ("aag 1 0 0 0 1 / 2 0 0 0", 2),
            ("aag 7 2 1 2 4 / 2 / 4 / 6 8 / 6 / 7 / 8 4 10 / 10 13 15 / 12 2 6 / 14 3 7", 7),
            ("aag 2 2 0 0 0 / 4", 3),
            ("aag 99999 99999 0 0 0 / 99998 / 99998", 3),
            ("aag 1 1 0 99999 0 / 2 / 2", 4),
            ("aag 0 0 0 0 0 / ", 2),
            ("aag 1 1 0 0 0 / 2 / i0 x", 3),
            ("aag 1 1 0 0 0 / 2 / c", 3),
        ] {
            assert_eq!(read(lines), refused(2, 1, line), "{lines}");
        }
        assert_eq!(Circuit::read(OR.trim_end().as_bytes()), refused(2, 1, 5));
        assert_eq!(Circuit::read(format!("{OR} ").as_bytes()), refused(2, 1, 6));
    }

    /// As many outputs as a file has room for: 65,536 bytes are read, one more is not.
    #[test]
    fn the_longest_file() {
        let file = format!("aag 0 0 0 32759 0\n{}", "1\n".repeat(32_759));
        assert_eq!(file.len(), 65_536);
        assert_eq!(Circuit::read(file.as_bytes()).map(|circuit| circuit.outputs), Ok(vec![1; 32_759]));
        assert_eq!(Circuit::read(format!("{file}\n").as_bytes()), refused(1, 1, 0));
    }
}
