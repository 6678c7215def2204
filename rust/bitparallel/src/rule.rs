//! Rules as tables of rows.

use crate::cursor::Cursor;
use second::Refusal;

/// A row; signals and operands count from 0.
#[derive(Clone, Copy)]
pub enum Row {
    True,
    False,
    Sig(u8),
    Nsig(u8),
    Not(u8),
    And(u8, u8),
    Or(u8, u8),
    Next(u8),
    Always(u8),
    Ever(u8),
    Weak(u8, u8),
    Until(u8, u8),
    Release(u8, u8),
    Srelease(u8, u8),
}

/// A rule; the last of its rows is the root.
pub struct Rule {
    pub signals: usize,
    rows: [Row; 64],
    count: usize,
}

impl Rule {
    /// Reads a rule file.
    pub fn read(bytes: &[u8]) -> Result<Rule, Refusal> {
        let mut cursor = Cursor::of(1, bytes)?;
        let signals = cursor.count(b"signals=", 1..=32)?;
        let count = cursor.count(b"rows=", 1..=64)?;
        let mut rows = [Row::True; 64];
        for (own, row) in rows[..count].iter_mut().enumerate() {
            cursor.numbered_line(b'r', own + 1)?;
            *row = read_row(&mut cursor, own, signals)?;
        }
        cursor.end()?;
        Ok(Rule { signals, rows, count })
    }

    /// The rows.
    pub fn rows(&self) -> &[Row] {
        &self.rows[..self.count]
    }
}

/// A word's letters in one number.
const fn packed(word: &[u8]) -> u64 {
    let (mut number, mut at) = (0, 0);
    while at < word.len() {
        number = number << 8 | word[at] as u64;
        at += 1;
    }
    number
}

/// The words by their letters.
macro_rules! words {
    ($($name:ident = $word:literal;)*) => { $(const $name: u64 = packed($word);)* };
}
words! {
    TRUE = b"true"; FALSE = b"false"; SIG = b"sig"; NSIG = b"nsig"; NOT = b"not"; AND = b"and"; OR = b"or"; NEXT = b"next";
    ALWAYS = b"always"; EVER = b"ever"; WEAK = b"weak"; UNTIL = b"until"; RELEASE = b"release"; SRELEASE = b"srelease";
}

/// Reads the value of the row whose number, from 0, is `own`.
fn read_row(cursor: &mut Cursor, own: usize, signals: usize) -> Result<Row, Refusal> {
    let letters = cursor.rest.iter().take(8).take_while(|byte| byte.is_ascii_lowercase()).count();
    let word = packed(&cursor.rest[..letters]);
    cursor.rest = &cursor.rest[letters..];
    match word {
        TRUE => none(cursor, Row::True),
        FALSE => none(cursor, Row::False),
        SIG => one(cursor, signals, Row::Sig),
        NSIG => one(cursor, signals, Row::Nsig),
        NOT => one(cursor, own, Row::Not),
        NEXT => one(cursor, own, Row::Next),
        ALWAYS => one(cursor, own, Row::Always),
        EVER => one(cursor, own, Row::Ever),
        AND => two(cursor, own, Row::And),
        OR => two(cursor, own, Row::Or),
        WEAK => two(cursor, own, Row::Weak),
        UNTIL => two(cursor, own, Row::Until),
        RELEASE => two(cursor, own, Row::Release),
        SRELEASE => two(cursor, own, Row::Srelease),
        _ => Err(cursor.refusal(2)),
    }
}

/// Reads what follows the word of a row without numbers.
fn none(cursor: &mut Cursor, row: Row) -> Result<Row, Refusal> {
    cursor.text(b"\n")?;
    Ok(row)
}

/// Reads what follows the word of a row with one number, which is at most `most`.
fn one(cursor: &mut Cursor, most: usize, row: fn(u8) -> Row) -> Result<Row, Refusal> {
    let a = spaced_number(cursor)?;
    cursor.text(b"\n")?;
    cursor.require((1..=most).contains(&a), 5)?;
    Ok(row(a as u8 - 1))
}

/// Reads what follows the word of a row with two numbers, which are at most `most`.
fn two(cursor: &mut Cursor, most: usize, row: fn(u8, u8) -> Row) -> Result<Row, Refusal> {
    let a = spaced_number(cursor)?;
    let b = spaced_number(cursor)?;
    cursor.text(b"\n")?;
    cursor.require((1..=most).contains(&a) && (1..=most).contains(&b), 5)?;
    Ok(row(a as u8 - 1, b as u8 - 1))
}

fn spaced_number(cursor: &mut Cursor) -> Result<usize, Refusal> {
    cursor.text(b" ")?;
    cursor.number()
}
