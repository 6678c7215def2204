//! What calls show of padded numbers: that they are read in values, held to the same ranges, and refused elsewhere.

use crate::call::{Answer, Outcome, Service};
use crate::implementations::by_second;
use crate::padding::{has_padded_value, is_padded, places, Digits};
use std::fmt;
use std::ops::Range;

/// What a call can show.
#[derive(Clone, Copy, Debug, PartialEq, Eq, PartialOrd, Ord)]
pub enum Shown {
    /// Files with padded numbers are read, and the call is answered.
    Read,
    /// A take is read with a padded zero as the loop's cycle.
    FirstCycle,
    /// A padded number that is not 0 is refused with this number.
    OutOfRange(u8),
    /// A padded zero is refused with this number.
    Zero(u8),
    /// A key is refused for the zeros in front of its number, and for nothing else.
    Key,
    /// A value is refused for the zeros that make a number of it have six digits, and for nothing else.
    SixDigits,
    /// A cycle or a sheet's row is refused for zeros in front of its digits, and for nothing else.
    Bits,
}

use Shown::*;

impl Shown {
    /// Everything, in the order of the table of counts.
    pub const ALL: [Shown; 12] = [
        Read,
        FirstCycle,
        OutOfRange(3),
        Zero(3),
        OutOfRange(4),
        Zero(4),
        OutOfRange(5),
        Zero(5),
        OutOfRange(6),
        Key,
        SixDigits,
        Bits,
    ];

    /// Whether a call of this service can show it. Refusals are looked at where a file is read alone; in circuits no number is padded.
    pub fn can_be_of(self, service: Service) -> bool {
        match self {
            Read => service.files() > 0 && service != Service::Simulate,
            FirstCycle | OutOfRange(6) => service == Service::ReadTake,
            OutOfRange(5) | Zero(5) => service == Service::ReadRule,
            Bits => matches!(service, Service::ReadTake | Service::ReadSheet),
            _ => reads_alone(service),
        }
    }
}

/// What is shown by a call that was answered, or else refused.
pub fn shown(service: Service, outcome: &Outcome, answered: bool) -> Vec<Shown> {
    let files = &outcome.inputs[..service.files()];
    match outcome.answer {
        _ if answered => by_answer(service, files),
        Answer::Refused(..) if reads_alone(service) => {
            by_refusal(service, &files[0], &outcome.answer).into_iter().collect()
        }
        _ => vec![],
    }
}

fn reads_alone(service: Service) -> bool {
    matches!(service, Service::ReadRule | Service::ReadTake | Service::ReadSheet)
}

fn by_answer(service: Service, files: &[Vec<u8>]) -> Vec<Shown> {
    let padded = files.iter().any(|file| has_padded_value(file));
    let first_cycle = padded && service == Service::ReadTake && {
        let value = &files[0][line(&files[0], 4).expect("a take has a loop")];
        value.starts_with(b"loop=00") && numbers(value).iter().all(|number| is_zero(number))
    };
    [(padded, Read), (first_cycle, FirstCycle)].into_iter().filter_map(|(is, shown)| is.then_some(shown)).collect()
}

fn by_refusal(service: Service, file: &[u8], refusal: &Answer) -> Option<Shown> {
    let &Answer::Refused(number, _, at) = refusal else { return None };
    let line = line(file, at)?;
    match number {
        2 => wrong_form(service, file, line, refusal),
        3..=6 => out_of_range(&file[line], number),
        _ => None,
    }
}

/// Whether a line whose number is refused has a padded one there: a zero, or nothing but padded ones.
fn out_of_range(line: &[u8], refused: u8) -> Option<Shown> {
    let numbers = numbers(line);
    if numbers.iter().any(|number| is_padded(number) && is_zero(number)) {
        Some(Zero(refused))
    } else {
        numbers.iter().all(|number| is_padded(number)).then_some(OutOfRange(refused))
    }
}

/// What a line is refused for, if that is zeros alone: without some of them the file is not refused so.
fn wrong_form(service: Service, file: &[u8], line: Range<usize>, refusal: &Answer) -> Option<Shown> {
    const MOST_ZEROS: usize = 5;
    let is_mended = |at: usize, zeros: usize| {
        let mended = [&file[..at], &file[at + zeros..]].concat();
        by_second(&service.of(&[&mended])).answer != *refusal
    };
    places(&file[line.clone()]).find_map(|(digits, place)| {
        let shown = match digits {
            Digits::Key => Key,
            Digits::Value if place.len() == 6 => SixDigits,
            Digits::Value => return None,
            Digits::Bits => Bits,
        };
        let at = line.start + place.start;
        let zeros = file[at..line.end].iter().take(MOST_ZEROS).take_while(|digit| **digit == b'0').count();
        (1..=zeros).any(|zeros| is_mended(at, zeros)).then_some(shown)
    })
}

/// Where a line, counted from 1, stands in a file.
fn line(file: &[u8], number: u32) -> Option<Range<usize>> {
    let mut starts = std::iter::once(0).chain((1..file.len()).filter(|at| file[at - 1] == b'\n'));
    let start = starts.nth(number.checked_sub(1)? as usize)?;
    Some(start..starts.next().unwrap_or(file.len()))
}

/// The numbers in a line's value.
fn numbers(line: &[u8]) -> Vec<&[u8]> {
    let in_value = places(line).filter(|(digits, _)| *digits == Digits::Value);
    in_value.map(|(_, place)| &line[place]).collect()
}

fn is_zero(number: &[u8]) -> bool {
    number.iter().all(|digit| *digit == b'0')
}

/// A few words, for the table of counts.
impl fmt::Display for Shown {
    fn fmt(&self, f: &mut fmt::Formatter<'_>) -> fmt::Result {
        match self {
            Read => write!(f, "padded, read"),
            FirstCycle => write!(f, "padded, loop 0"),
            OutOfRange(number) => write!(f, "padded, {number}"),
            Zero(number) => write!(f, "padded zero, {number}"),
            Key => write!(f, "padded key, 2"),
            SixDigits => write!(f, "six digits, 2"),
            Bits => write!(f, "padded digits, 2"),
        }
    }
}

#[cfg(test)]
mod tests {
    use super::*;

    /// What reading a file shows.
    fn of(service: Service, file: &str) -> Vec<Shown> {
        let outcome = by_second(&service.of(&[file.as_bytes()]));
        shown(service, &outcome, outcome.answer == Answer::Accepted)
    }

    #[test]
    fn answers_show_padded_files() {
        assert_eq!(of(Service::ReadRule, "format=1\nsignals=1\nrows=1\nr1=sig 1\n"), []);
        assert_eq!(of(Service::ReadRule, "format=1\nsignals=1\nrows=1\nr1=sig 01\n"), [Read]);
        assert_eq!(of(Service::ReadTake, "format=1\nsignals=1\ncycles=1\nloop=0\nc0=0\n"), []);
        assert_eq!(of(Service::ReadTake, "format=1\nsignals=02\ncycles=1\nloop=0\nc0=00\n"), [Read]);
        assert_eq!(of(Service::ReadTake, "format=1\nsignals=1\ncycles=2\nloop=001\nc0=0\nc1=0\n"), [Read]);
        assert_eq!(of(Service::ReadTake, "format=1\nsignals=1\ncycles=1\nloop=00\nc0=0\n"), [Read, FirstCycle]);
    }

    #[test]
    fn refusals_show_padded_numbers() {
        let rule = |row: &str| of(Service::ReadRule, &format!("format=1\nsignals=1\nrows=2\nr1=true\n{row}\n"));
        assert_eq!(of(Service::ReadRule, "format=2\n"), []);
        assert_eq!(of(Service::ReadRule, "format=002\n"), [OutOfRange(3)]);
        assert_eq!(of(Service::ReadSheet, "format=1\nrows=00000\n"), [Zero(4)]);
        assert_eq!(of(Service::ReadTake, "format=1\nsignals=1\ncycles=2\nloop=02\n"), [OutOfRange(6)]);
        assert_eq!(rule("r2=and 00000 1"), [Zero(5)]);
        assert_eq!(rule("r2=and 01 00002"), [OutOfRange(5)]);
        assert_eq!(rule("r2=and 01 2"), [], "which is at fault is not asked");
    }

    #[test]
    fn refusals_show_zeros_that_are_too_many() {
        let rule = |row: &str| of(Service::ReadRule, &format!("format=1\nsignals=1\nrows=2\nr1=true\n{row}\n"));
        let take = |cycle: &str| of(Service::ReadTake, &format!("format=1\nsignals=2\ncycles=1\nloop=0\n{cycle}\n"));
        assert_eq!((rule("r02=not 1"), rule("r0002=not 9")), (vec![Key], vec![Key]));
        assert_eq!((rule("r02=not -1"), rule("r03=not 1")), (vec![], vec![]));
        assert_eq!((rule("r2=not 000001"), rule("r2=and 1 000000")), (vec![SixDigits], vec![SixDigits]));
        assert_eq!((rule("r2=not 0000001"), rule("r2=not 100000")), (vec![], vec![]));
        assert_eq!((take("c0=0010"), take("c00=10")), (vec![Bits], vec![Key]));
        assert_eq!((take("c0=110"), take("c1=10")), (vec![], vec![]));
    }
}
