//! Files as lines, each with its line feed: lines `key=value` but in circuits, and the numbers in their values.

use crate::refusal::Refusal;
use std::ops::RangeInclusive;

/// The longest file that is read.
const MOST_BYTES: usize = 65_536;

/// The lines of a file that are not read yet.
pub struct Lines<'a> {
    file: u8,
    line: u32,
    rest: std::slice::SplitInclusive<'a, u8, fn(&u8) -> bool>,
}

impl<'a> Lines<'a> {
    /// The lines of file number `file`, none of them read.
    pub fn all(file: u8, bytes: &'a [u8]) -> Result<Self, Refusal> {
        if bytes.len() > MOST_BYTES {
            return Err(Refusal { number: 1, file, line: 0 });
        }
        let is_feed: fn(&u8) -> bool = |byte| *byte == b'\n';
        Ok(Lines { file, line: 0, rest: bytes.split_inclusive(is_feed) })
    }

    /// The lines of file number `file`, its format line read.
    pub fn of(file: u8, bytes: &'a [u8]) -> Result<Self, Refusal> {
        let mut lines = Lines::all(file, bytes)?;
        let format = lines.parsed("format", number)?;
        lines.require(format == 1, 3)?;
        Ok(lines)
    }

    /// The refusal with this number at the line read last.
    pub fn refusal(&self, number: u8) -> Refusal {
        Refusal { number, file: self.file, line: self.line }
    }

    /// Refuses the line read last with `number` unless `fits`.
    pub fn require(&self, fits: bool, number: u8) -> Result<(), Refusal> {
        fits.then_some(()).ok_or(self.refusal(number))
    }

    /// Reads the next line; `parse` must take it, without its line feed.
    pub fn read<T>(&mut self, parse: impl FnOnce(&'a str) -> Option<T>) -> Result<T, Refusal> {
        self.line += 1;
        self.rest.next().and_then(text).and_then(parse).ok_or(self.refusal(2))
    }

    /// Reads the next line; its key must be `key`, to the byte, and `parse` must take its value, behind the equals sign.
    pub fn parsed<T>(&mut self, key: &str, parse: impl FnOnce(&'a str) -> Option<T>) -> Result<T, Refusal> {
        self.read(|line| line.strip_prefix(key)?.strip_prefix('=').and_then(parse))
    }

    /// Reads the next line as a count in a range.
    pub fn count(&mut self, key: &str, range: RangeInclusive<usize>) -> Result<usize, Refusal> {
        let count = self.parsed(key, number)?;
        self.require(range.contains(&count), 4)?;
        Ok(count)
    }

    /// Nothing may follow the last line.
    pub fn end(mut self) -> Result<(), Refusal> {
        self.line += 1;
        let surplus = self.rest.next();
        self.require(surplus.is_none(), 2)
    }
}

/// A line without its line feed.
fn text(line: &[u8]) -> Option<&str> {
    std::str::from_utf8(line).ok()?.strip_suffix('\n')
}

/// A decimal number in a value: one to five digits, the first of which may be zeros.
pub fn number(text: &str) -> Option<usize> {
    let all_digits = text.chars().all(|character| character.is_ascii_digit());
    text.parse().ok().filter(|_| all_digits && text.len() <= 5)
}

/// As many digits 0 and 1 as `length` says.
pub fn digits(text: &str, length: usize) -> Option<Vec<bool>> {
    let digits: Option<Vec<bool>> = text.chars().map(digit).collect();
    digits.filter(|digits| digits.len() == length)
}

/// A digit 0 or 1.
pub fn digit(character: char) -> Option<bool> {
    match character {
        '0' => Some(false),
        '1' => Some(true),
        _ => None,
    }
}

#[cfg(test)]
mod tests {
    use super::*;

    #[test]
    fn numbers() {
        for (text, expected) in [("0", 0), ("7", 7), ("99999", 99_999), ("10", 10), ("01", 1), ("00012", 12)] {
            assert_eq!(number(text), Some(expected));
        }
        for text in ["", "+1", "-1", "+0001", " 1", "1 ", "1.", "x", "100000", "٣"] {
            assert_eq!(number(text), None, "{text}");
        }
    }

    /// Every number below 100,000 at every width up to five digits is read as itself, and as none at six.
    #[test]
    fn padded_numbers() {
        for expected in 0..100_000 {
            for width in expected.to_string().len()..=5 {
                assert_eq!(number(&format!("{expected:0width$}")), Some(expected));
            }
            assert_eq!(number(&format!("{expected:06}")), None);
        }
    }
}
