//! Takes: a digit for each signal in each cycle, and where the loop begins.

use crate::lines::{digits, number, Lines};
use crate::refusal::Refusal;
use crate::rule::MOST_SIGNALS;
use std::fmt;

/// The cycles that a take or a sheet may have.
pub const MOST_CYCLES: usize = 256;

/// A take.
#[derive(Clone, Debug, PartialEq, Eq)]
pub struct Take {
    pub signals: usize,
    /// The signals of each cycle, signal 1 first.
    pub cycles: Vec<Vec<bool>>,
    /// The cycle where the loop begins; none for an open take.
    pub start: Option<usize>,
}

impl Take {
    /// Reads a take file.
    pub fn read(bytes: &[u8]) -> Result<Take, Refusal> {
        let mut lines = Lines::of(2, bytes)?;
        let signals = lines.count("signals", 1..=MOST_SIGNALS)?;
        let count = lines.count("cycles", 1..=MOST_CYCLES)?;
        let start = lines.parsed("loop", loop_value)?;
        lines.require(start.is_none_or(|cycle| cycle < count), 6)?;
        let cycles = (0..count).map(|cycle| lines.parsed(&format!("c{cycle}"), |value| digits(value, signals)));
        let cycles = cycles.collect::<Result<_, _>>()?;
        lines.end()?;
        Ok(Take { signals, cycles, start })
    }

    /// Signal `signal`, from 1, in a cycle.
    pub fn signal(&self, signal: usize, cycle: usize) -> bool {
        self.cycles[cycle][signal - 1]
    }

    /// The take with so many rounds of its loop written out before the loop; none where it passes the cycles that a take may have.
    pub fn written_out(&self, rounds: u8) -> Option<Take> {
        let mut longer = self.clone();
        let Some(start) = &mut longer.start else { return Some(longer) };
        let round = &self.cycles[*start..];
        for _ in 0..rounds {
            longer.cycles.extend_from_slice(round);
            *start += round.len();
        }
        Some(longer).filter(|take| take.cycles.len() <= MOST_CYCLES)
    }
}

/// The take file.
impl fmt::Display for Take {
    fn fmt(&self, f: &mut fmt::Formatter<'_>) -> fmt::Result {
        let digit = |on: &bool| if *on { '1' } else { '0' };
        let cycles: Vec<String> = self.cycles.iter().map(|cycle| cycle.iter().map(digit).collect()).collect();
        let start = self.start.map_or("none".to_string(), |cycle| cycle.to_string());
        f.write_str(&file(self.signals, &start, &cycles))
    }
}

/// The take file with these digits of its cycles.
pub fn file(signals: usize, start: &str, cycles: &[String]) -> String {
    let lines: String = (0..).zip(cycles).map(|(cycle, digits)| format!("c{cycle}={digits}\n")).collect();
    format!("format=1\nsignals={signals}\ncycles={}\nloop={start}\n{lines}", cycles.len())
}

/// The value of a loop line: `none`, or a cycle.
fn loop_value(value: &str) -> Option<Option<usize>> {
    match value {
        "none" => Some(None),
        _ => number(value).map(Some),
    }
}

#[cfg(test)]
mod tests {
    use super::*;
    use crate::cases::{refused, take};
    use crate::written_out;

    /// The take file that is written, if one is.
    fn out(take: &str, rounds: u8) -> Option<String> {
        let mut output = [0; 3000];
        let length = written_out(take.as_bytes(), rounds, &mut output).unwrap()?;
        Some(String::from_utf8(output[..length].to_vec()).unwrap())
    }

    /// A take of so many cycles, no two of them the same.
    fn counted(cycles: usize, start: usize) -> Take {
        let digits = |cycle: usize| (0..8).map(|signal| cycle >> signal & 1 == 1).collect();
        Take { signals: 8, cycles: (0..cycles).map(digits).collect(), start: Some(start) }
    }

    #[test]
    fn rounds_stand_before_the_loop() {
        let three = take("1", &["100", "010", "001"]);
        assert_eq!(out(&three, 1), Some(take("3", &["100", "010", "001", "010", "001"])));
        assert_eq!(out(&three, 2), Some(take("5", &["100", "010", "001", "010", "001", "010", "001"])));
        assert_eq!(out(&take("0", &["10", "01"]), 2), Some(take("4", &["10", "01", "10", "01", "10", "01"])));
        assert_eq!(out(&take("1", &["0", "1"]), 3), Some(take("4", &["0", "1", "1", "1", "1"])));
    }

    #[test]
    fn open_takes_and_no_rounds_leave_the_take() {
        for rounds in [0, 1, 255] {
            assert_eq!(out(&take("none", &["10", "01"]), rounds), Some(take("none", &["10", "01"])));
            assert_eq!(out(&take("none", &["1"; 256]), rounds), Some(take("none", &["1"; 256])));
        }
        assert_eq!(out(&take("1", &["10", "01"]), 0), Some(take("1", &["10", "01"])));
        assert_eq!(out(&take("0", &["1"; 256]), 0), Some(take("0", &["1"; 256])));
    }

    #[test]
    fn the_endless_take_stays() {
        for (cycles, start, rounds) in [(1, 0, 7), (5, 4, 3), (40, 7, 6), (64, 0, 3), (129, 2, 1)] {
            let [short, long] = [counted(cycles, start), counted(cycles, start).written_out(rounds).unwrap()];
            let along = |take: &Take, start: usize| {
                let round = take.cycles[start..].iter().cycle();
                take.cycles[..start].iter().chain(round).take(1000).cloned().collect::<Vec<_>>()
            };
            assert_eq!(long.cycles.len() - cycles, usize::from(rounds) * (cycles - start));
            assert_eq!(along(&long, long.start.unwrap()), along(&short, start));
        }
    }

    #[test]
    fn above_256_cycles_there_is_none() {
        let count = |cycles, start, rounds| counted(cycles, start).written_out(rounds).map(|take| take.cycles.len());
        assert_eq!((count(1, 0, 255), count(2, 1, 254), count(2, 1, 255)), (Some(256), Some(256), None));
        assert_eq!((count(129, 2, 1), count(129, 1, 1), count(128, 0, 1)), (Some(256), None, Some(256)));
        assert_eq!((count(256, 255, 0), count(256, 255, 1), count(256, 0, 255)), (Some(256), None, None));
    }

    #[test]
    fn refusals_leave_the_output() {
        let mut output = [b'.'; 59];
        assert_eq!(written_out(b"", 1, &mut output), refused(2, 2, 1));
        assert_eq!(written_out(take("2", &["10", "01"]).as_bytes(), 255, &mut output), refused(6, 2, 4));
        assert_eq!(written_out(take("0", &["10", "01"]).as_bytes(), 1, &mut output[..58]), refused(10, 0, 0));
        assert_eq!(written_out(take("0", &["10", "01"]).as_bytes(), 255, &mut output), Ok(None));
        assert_eq!(output, [b'.'; 59]);
        assert_eq!(written_out(take("0", &["10", "01"]).as_bytes(), 1, &mut output), Ok(Some(59)));
    }
}
