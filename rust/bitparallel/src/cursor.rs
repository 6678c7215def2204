//! Reading a file from front to back.

use second::Refusal;
use std::ops::RangeInclusive;

/// The longest file that is read.
const MOST_BYTES: usize = 65_536;

/// What is left of a file, and the line it is in.
pub struct Cursor<'a> {
    pub rest: &'a [u8],
    file: u8,
    line: u32,
}

impl<'a> Cursor<'a> {
    /// The file behind its format line.
    pub fn of(file: u8, rest: &'a [u8]) -> Result<Self, Refusal> {
        let mut cursor = Cursor { rest, file, line: 0 };
        cursor.require(rest.len() <= MOST_BYTES, 1)?;
        let format = cursor.number_line(b"format=")?;
        cursor.require(format == 1, 3)?;
        Ok(cursor)
    }

    /// The refusal with this number at the line that was begun last.
    pub fn refusal(&self, number: u8) -> Refusal {
        Refusal { number, file: self.file, line: self.line }
    }

    /// Refuses with `number` unless `fits`.
    pub fn require(&self, fits: bool, number: u8) -> Result<(), Refusal> {
        match fits {
            true => Ok(()),
            false => Err(self.refusal(number)),
        }
    }

    /// Begins a line.
    pub fn line(&mut self, key: &[u8]) -> Result<(), Refusal> {
        self.line += 1;
        self.text(key)
    }

    /// Begins a line whose key is a letter and a number.
    #[inline]
    pub fn numbered_line(&mut self, letter: u8, number: usize) -> Result<(), Refusal> {
        let (key, length) = KEYS[number];
        self.line += 1;
        let differences = loaded(self.rest) ^ (key | u64::from(letter));
        self.require(differences << (64 - 8 * length) == 0, 2)?;
        self.rest = &self.rest[length..];
        Ok(())
    }

    /// Reads past a text.
    pub fn text(&mut self, text: &[u8]) -> Result<(), Refusal> {
        self.rest = self.rest.strip_prefix(text).ok_or(self.refusal(2))?;
        Ok(())
    }

    /// Reads a number of one to five digits, the first of which may be zeros.
    pub fn number(&mut self) -> Result<usize, Refusal> {
        let (mut number, mut length) = (0, 0);
        while let Some(digit @ b'0'..=b'9') = self.rest.get(length) {
            self.require(length < 5, 2)?;
            number = 10 * number + usize::from(digit - b'0');
            length += 1;
        }
        self.require(length > 0, 2)?;
        self.rest = &self.rest[length..];
        Ok(number)
    }

    /// Reads a line that is a key and a number.
    fn number_line(&mut self, key: &[u8]) -> Result<usize, Refusal> {
        self.line(key)?;
        let number = self.number()?;
        self.text(b"\n")?;
        Ok(number)
    }

    /// Reads a line that is a key and a count in a range.
    pub fn count(&mut self, key: &[u8], range: RangeInclusive<usize>) -> Result<usize, Refusal> {
        let count = self.number_line(key)?;
        self.require(range.contains(&count), 4)?;
        Ok(count)
    }

    /// Nothing may follow the last line.
    pub fn end(mut self) -> Result<(), Refusal> {
        self.line += 1;
        self.require(self.rest.is_empty(), 2)
    }
}

/// The first eight bytes, the first lowest; zeros where there are fewer.
#[inline]
fn loaded(bytes: &[u8]) -> u64 {
    match bytes.first_chunk() {
        Some(eight) => u64::from_le_bytes(*eight),
        None => bytes.iter().rev().fold(0, |word, byte| word << 8 | u64::from(*byte)),
    }
}

/// The keys with the numbers 0 to 256, as eight bytes: a place for the letter, the number, an equals sign; and their lengths.
static KEYS: [(u64, usize); 257] = keys();

const fn keys() -> [(u64, usize); 257] {
    let mut all = [(0, 0); 257];
    let mut number = 0;
    while number < 257 {
        let [hundreds, tens, ones] = [number / 100, number / 10 % 10, number % 10];
        let (h, t, o) = (b'0' + hundreds as u8, b'0' + tens as u8, b'0' + ones as u8);
        all[number] = match number {
            0..=9 => (u64::from_le_bytes([0, o, b'=', 0, 0, 0, 0, 0]), 3),
            10..=99 => (u64::from_le_bytes([0, t, o, b'=', 0, 0, 0, 0]), 4),
            _ => (u64::from_le_bytes([0, h, t, o, b'=', 0, 0, 0]), 5),
        };
        number += 1;
    }
    all
}
