//! Runs: a take judged while it is recorded.
//!
//! A run is kept as a rule and the digits of its cycles. Its bytes are written from these alone, and read through the files: the rule
//! that they spell is read as a rule file, and what was read must be written as the same bytes again. So the bytes that are
//! read are exactly those that some rule and some cycles are written as.

use crate::rule::{Row, Rule, WORDS};
use crate::take::{file, MOST_CYCLES};

/// The bytes of a run.
const BYTES: usize = 1220;
/// Where the rows begin, three bytes each, behind the digits; and where signals, rows and cycles stand, behind the rows.
const ROWS: usize = 1024;
const SIGNALS: usize = 1216;

/// A rule and the digits of the cycles so far.
pub struct Run {
    pub rule: Rule,
    pub cycles: Vec<String>,
}

impl Run {
    /// The run that these bytes are, if calls lead to them.
    pub fn read(bytes: &[u8]) -> Option<Run> {
        let &[_, _, low, high] = bytes.get(SIGNALS..)? else { return None };
        let count = usize::from(low) + 256 * usize::from(high);
        if bytes.len() != BYTES || count > MOST_CYCLES {
            return None;
        }
        let rule = Rule::read(run_rule(bytes)?.as_bytes()).ok()?;
        let digit = |signal, cycle| {
            let (byte, bit) = place(signal, cycle);
            if bytes[byte] & bit == 0 {
                '0'
            } else {
                '1'
            }
        };
        let cycles = (0..count).map(|cycle| (1..=rule.signals).map(|signal| digit(signal, cycle)).collect()).collect();
        Some(Run { rule, cycles }).filter(|run| run.bytes() == bytes)
    }

    /// The bytes of this run.
    pub fn bytes(&self) -> Vec<u8> {
        let mut bytes = vec![0; BYTES];
        for (cycle, digits) in self.cycles.iter().enumerate() {
            for (signal, _) in (1..).zip(digits.chars()).filter(|(_, digit)| *digit == '1') {
                let (byte, bit) = place(signal, cycle);
                bytes[byte] |= bit;
            }
        }
        for (row, place) in self.rule.rows.iter().zip(bytes[ROWS..SIGNALS].chunks_mut(3)) {
            place.copy_from_slice(&written(*row));
        }
        let counts = [self.rule.signals, self.rule.rows.len(), self.cycles.len() % 256, self.cycles.len() / 256];
        bytes[SIGNALS..].copy_from_slice(&counts.map(|count| count as u8));
        bytes
    }

    /// The take file of the cycles so far.
    pub fn take(&self) -> String {
        file(self.rule.signals, "none", &self.cycles)
    }
}

/// The rule file that the bytes of a run spell, also one that is refused; none where a row has no known word.
pub fn run_rule(bytes: &[u8]) -> Option<String> {
    let &[signals, rows, ..] = bytes.get(SIGNALS..)? else { return None };
    let places = bytes[ROWS..SIGNALS].chunks(3).take(rows.into());
    let lines: Option<String> = (1..).zip(places).map(|(own, row)| Some(format!("r{own}={}\n", spelt(row)?))).collect();
    Some(format!("format=1\nsignals={signals}\nrows={rows}\n{}", lines?))
}

/// The byte and the bit in it where a signal's digit in a cycle stands: a word of 64 bits, its lowest byte first, has 64 cycles of a
/// signal; behind the words of all 32 signals come those of the next 64 cycles.
fn place(signal: usize, cycle: usize) -> (usize, u8) {
    let word = 32 * (cycle / 64) + signal - 1;
    (8 * word + cycle % 64 / 8, 1 << (cycle % 8))
}

/// The row that three bytes name, as a rule file spells it.
fn spelt(bytes: &[u8]) -> Option<String> {
    let &(word, count) = WORDS.get(usize::from(bytes[0]))?;
    let numbers: String = bytes[1..].iter().take(count).map(|number| format!(" {number}")).collect();
    Some(format!("{word}{numbers}"))
}

/// The three bytes of a row, from how a rule file spells it.
fn written(row: Row) -> [u8; 3] {
    let text = row.to_string();
    let mut words = text.split(' ');
    let word = words.next();
    let kind = WORDS.iter().position(|(known, _)| Some(*known) == word).expect("every row has a known word");
    let mut number = || words.next().map_or(0, |number| number.parse().expect("a row's numbers are small"));
    [kind as u8, number(), number()]
}

#[cfg(test)]
mod tests {
    use super::*;
    use crate::{run_begin, run_cycle, run_verdict, Refusal, Verdict};

    /// Always, not signal 1 or next signal 2.
    const RULE: &[u8] =
        b"format=1\nsignals=2\nrows=6\nr1=sig 1\nr2=not 1\nr3=sig 2\nr4=next 3\nr5=or 2 4\nr6=always 5\n";

    fn begun() -> [u8; BYTES] {
        let mut run = [0; BYTES];
        assert_eq!(run_begin(RULE, &mut run), Ok(BYTES));
        run
    }

    fn refused<T>(number: u8) -> Result<T, Refusal> {
        Err(Refusal::of_call(number))
    }

    #[test]
    fn bytes_of_a_run() {
        let mut run = begun();
        for digits in ["10", "01"] {
            run_cycle(&mut run, digits.as_bytes()).unwrap();
        }
        let mut bytes = [0; BYTES];
        bytes[0] = 0b01;
        bytes[8] = 0b10;
        bytes[1024..1042].copy_from_slice(&[2, 1, 0, 4, 1, 0, 2, 2, 0, 7, 3, 0, 6, 2, 4, 8, 5, 0]);
        bytes[1216..].copy_from_slice(&[2, 6, 2, 0]);
        assert_eq!(run, bytes);
        for _ in 2..256 {
            run_cycle(&mut run, b"11").unwrap();
        }
        for byte in [8, 256, 264, 512, 520, 768, 776] {
            let first = if byte == 8 { 0xfe } else { 0xff };
            assert_eq!(run[byte..byte + 8], [first, 255, 255, 255, 255, 255, 255, 255]);
        }
        assert_eq!(run[1216..], [2, 6, 0, 1]);
    }

    #[test]
    fn a_run_is_open_and_then_broken() {
        let mut run = begun();
        assert_eq!(run_verdict(&run), refused(4));
        run_cycle(&mut run, b"10").unwrap();
        assert_eq!(run_verdict(&run), Ok(Verdict::Open));
        let before = run;
        assert_eq!(run_cycle(&mut run, b"0-0"), refused(2));
        assert_eq!(run_cycle(&mut run, b"0"), refused(7));
        assert_eq!(run, before);
        run_cycle(&mut run, b"00").unwrap();
        assert_eq!(run_verdict(&run), Ok(Verdict::Broken));
    }

    #[test]
    fn a_run_ends_at_256_cycles() {
        let mut run = begun();
        (0..256).for_each(|_| run_cycle(&mut run, b"00").unwrap());
        let full = run;
        assert_eq!(run_cycle(&mut run, b"00-"), refused(2));
        assert_eq!(run_cycle(&mut run, b"000"), refused(7));
        assert_eq!(run_cycle(&mut run, b"00"), refused(11));
        assert_eq!(run, full);
        assert_eq!(run_verdict(&run), Ok(Verdict::Open));
    }

    #[test]
    fn other_bytes_are_no_run() {
        let changed = |place: usize, byte: u8| {
            let mut run = begun();
            run_cycle(&mut run, b"10").unwrap();
            run[place] = byte;
            assert_eq!(run_cycle(&mut run, b"x"), run_verdict(&run).map_or(refused(4), |_| refused(2)));
            run_verdict(&run)
        };
        assert_eq!(changed(0, 0), Ok(Verdict::Open));
        assert_eq!(changed(0, 2), refused(4)); // a cycle behind the last
        assert_eq!(changed(16, 1), refused(4)); // a third signal
        assert_eq!(changed(1024, 3), Ok(Verdict::Open)); // nsig
        assert_eq!(changed(1024, 14), refused(4)); // no kind
        assert_eq!(changed(1025, 3), refused(4)); // a signal above 2
        assert_eq!(changed(1026, 1), refused(4)); // a second number of `sig`
        assert_eq!(changed(1028, 2), refused(4)); // a row not below its own
        assert_eq!(changed(1042, 1), refused(4)); // a row behind the last
        assert_eq!(changed(1216, 33), refused(4));
        assert_eq!(changed(1217, 5), refused(4));
        assert_eq!(changed(1217, 65), refused(4));
        assert_eq!(changed(1218, 2), Ok(Verdict::Broken)); // a second cycle, of zeros
        assert_eq!(changed(1219, 1), refused(4)); // 257 cycles
        assert_eq!(run_verdict(&[0; BYTES]), refused(4));
        assert_eq!(run_verdict(&begun()[..BYTES - 1]), refused(4));
        assert_eq!(run_cycle(&mut [&begun()[..], &[0]].concat(), b"00"), refused(4));
    }

    #[test]
    fn a_run_begins_where_there_is_room() {
        let mut run = [7; BYTES + 1];
        assert_eq!(run_begin(b"", &mut run[..3]), Err(Refusal { number: 2, file: 1, line: 1 }));
        assert_eq!(run_begin(RULE, &mut run[..BYTES - 1]), refused(10));
        assert_eq!(run, [7; BYTES + 1]);
        assert_eq!(run_begin(RULE, &mut run), Ok(BYTES));
        assert_eq!((&run[..BYTES], run[BYTES]), (&begun()[..], 7));
    }
}
