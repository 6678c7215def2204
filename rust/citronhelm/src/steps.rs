//! The monitors of a rule, one cycle at a time.

use crate::declarations;
use crate::reading::rows;
use crate::refusal::{counted, Refusal};

/// The bytes that [`step`] needs at most.
pub const MOST_STEP: usize = 384;

/// One cycle of a rule's monitors. All inputs behind the rule are digits, `b'0'` and `b'1'`: the pending of each row of the normal
/// form one cycle earlier (all `b'0'` before the first cycle), each row's activator, each signal. Writes the digits of
/// failed, then accept, then pending, each by row, and answers their number, 3 × [`rows`](crate::rows): at most [`MOST_STEP`].
///
/// ```
/// use citronhelm::step;
///
/// let rule = b"format=1\nsignals=2\nrows=6\n\
///     r1=sig 1\nr2=not 1\nr3=sig 2\nr4=ever 3\nr5=or 2 4\nr6=always 5\n";
/// let mut output = [0; 15];
/// assert_eq!(step(rule, b"00000", b"00111", b"10", &mut output), Ok(15));
/// let (failed, rest) = output.split_at(5);
/// let (accept, pending) = rest.split_at(5);
/// assert_eq!((failed, accept, pending), (&b"00000"[..], &b"11011"[..], &b"00101"[..]));
/// ```
pub fn step(
    rule: &[u8],
    pendings: &[u8],
    activators: &[u8],
    signals: &[u8],
    output: &mut [u8],
) -> Result<usize, Refusal> {
    counted(declarations::step(rule, pendings, activators, signals, output))
}

/// The monitors of a rule along a take: [`step`] with the pendings kept from one cycle to the next.
///
/// ```
/// use citronhelm::Monitors;
///
/// let rule = b"format=1\nsignals=2\nrows=6\n\
///     r1=sig 1\nr2=not 1\nr3=sig 2\nr4=ever 3\nr5=or 2 4\nr6=always 5\n";
/// let mut monitors = Monitors::new(rule)?;
/// assert_eq!(monitors.step(b"00111", b"10")?.accept, b"11011");
/// assert!(monitors.step(b"00111", b"1").is_err()); // two signals are due: refused, and no cycle
/// let outputs = monitors.step(b"11111", b"01")?;
/// assert_eq!((outputs.failed, outputs.accept, outputs.pending), (&b"00000"[..], &b"11111"[..], &b"00001"[..]));
/// # Ok::<(), citronhelm::Refusal>(())
/// ```
#[derive(Clone, Debug)]
pub struct Monitors<'a> {
    rule: &'a [u8],
    rows: usize,
    /// The last answered step's output, 3 × `rows` digits; before the first one all are `b'0'`.
    digits: [u8; MOST_STEP],
}

/// What the monitors say in a cycle: a digit, `b'0'` or `b'1'`, for each row of the normal form.
#[derive(Clone, Copy, Debug, PartialEq, Eq)]
pub struct Outputs<'a> {
    /// Whether the row's monitor fails.
    pub failed: &'a [u8],
    /// Whether it accepts.
    pub accept: &'a [u8],
    /// Whether it is pending.
    pub pending: &'a [u8],
}

impl<'a> Monitors<'a> {
    /// The monitors of a rule before the first cycle, or the rule's refusal.
    pub fn new(rule: &'a [u8]) -> Result<Monitors<'a>, Refusal> {
        Ok(Monitors { rule, rows: rows(rule)?, digits: [b'0'; MOST_STEP] })
    }

    /// The next cycle, from each row's activator and each signal, digits `b'0'` and `b'1'`. A refused step is no cycle: it changes
    /// nothing, and another one can follow.
    pub fn step(&mut self, activators: &[u8], signals: &[u8]) -> Result<Outputs<'_>, Refusal> {
        let last = self.digits;
        let pendings = &last[2 * self.rows..3 * self.rows];
        step(self.rule, pendings, activators, signals, &mut self.digits[..3 * self.rows])?;
        let (failed, rest) = self.digits[..3 * self.rows].split_at(self.rows);
        let (accept, pending) = rest.split_at(self.rows);
        Ok(Outputs { failed, accept, pending })
    }
}

#[cfg(test)]
mod tests {
    use super::*;

    const RULE: &[u8] = b"format=1\nsignals=3\nrows=16\nr1=sig 1\nr2=nsig 2\nr3=sig 3\nr4=and 1 2\nr5=or 2 3\nr6=next 4\n\
        r7=always 5\nr8=ever 3\nr9=weak 4 8\nr10=until 5 6\nr11=release 1 7\nr12=srelease 9 10\nr13=not 12\nr14=or 11 13\n\
        r15=and 12 14\nr16=always 15\n";

    /// Digits that follow from a number; one byte is no digit where that is asked for.
    fn digits(number: &mut u64, count: usize, damaged: bool) -> Vec<u8> {
        let mut next = || {
            *number = number.wrapping_mul(6364136223846793005).wrapping_add(1442695040888963407);
            b'0' + (*number >> 63) as u8
        };
        let mut digits: Vec<u8> = (0..count).map(|_| next()).collect();
        if damaged {
            digits[count / 2] = b'2';
        }
        digits
    }

    #[test]
    fn monitors_are_steps_with_copied_pendings() {
        let rows = rows(RULE).unwrap();
        let (mut answered, mut refused, mut number) = (0, 0, 1);
        for _ in 0..50 {
            let mut monitors = Monitors::new(RULE).unwrap();
            let (mut pendings, mut output) = (vec![b'0'; rows], vec![b'0'; 3 * rows]);
            for call in 0..60 {
                let activators = digits(&mut number, if call % 7 == 3 { rows - 1 } else { rows }, call % 11 == 5);
                let signals = digits(&mut number, if call % 13 == 8 { 4 } else { 3 }, call % 17 == 9);
                let expected = step(RULE, &pendings, &activators, &signals, &mut output);
                match monitors.step(&activators, &signals) {
                    Ok(Outputs { failed, accept, pending }) => {
                        assert_eq!(expected, Ok(3 * rows));
                        assert_eq!([failed, accept, pending].concat(), output);
                        pendings.copy_from_slice(&output[2 * rows..]);
                        answered += 1;
                    }
                    Err(refusal) => {
                        assert_eq!(expected, Err(refusal));
                        refused += 1;
                    }
                }
                assert_eq!(monitors.digits[..3 * rows], output);
            }
        }
        assert!(answered > 1000 && refused > 500);
    }

    #[test]
    fn a_refused_rule_has_no_monitors() {
        let refused = b"format=1\nsignals=1\nrows=2\nr1=sig 1\nr2=always 2\n";
        assert_eq!(Monitors::new(refused).unwrap_err(), rows(refused).unwrap_err());
    }
}
