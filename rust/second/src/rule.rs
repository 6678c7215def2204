//! Rules: rows of words and operands.

use crate::lines::{number, Lines};
use crate::refusal::Refusal;
use std::fmt;

/// The rows that a rule file may have.
const MOST_ROWS: usize = 64;

/// The signals that a rule or a take may have.
pub const MOST_SIGNALS: usize = 32;

/// The words of rows, each with its count of numbers, at the places that a run's bytes name them by.
pub const WORDS: [(&str, usize); 14] = [
    ("true", 0),
    ("false", 0),
    ("sig", 1),
    ("nsig", 1),
    ("not", 1),
    ("and", 2),
    ("or", 2),
    ("next", 1),
    ("always", 1),
    ("ever", 1),
    ("weak", 2),
    ("until", 2),
    ("release", 2),
    ("srelease", 2),
];

/// A row with the numbers of its signal or operands; both count from 1.
#[derive(Clone, Copy, Debug, PartialEq, Eq)]
pub enum Row {
    True,
    False,
    Sig(usize),
    Nsig(usize),
    Not(usize),
    And(usize, usize),
    Or(usize, usize),
    Next(usize),
    Always(usize),
    Ever(usize),
    Weak(usize, usize),
    Until(usize, usize),
    Release(usize, usize),
    Srelease(usize, usize),
}

use Row::*;

/// A rule: its number of signals and its rows, the last of which is the root.
#[derive(Clone, Debug, PartialEq, Eq)]
pub struct Rule {
    pub signals: usize,
    pub rows: Vec<Row>,
}

impl Row {
    /// The row that a value spells, whatever its numbers.
    fn parse(value: &str) -> Option<Row> {
        let words: Vec<&str> = value.split(' ').collect();
        Some(match words[..] {
            ["true"] => True,
            ["false"] => False,
            ["sig", s] => Sig(number(s)?),
            ["nsig", s] => Nsig(number(s)?),
            ["not", a] => Not(number(a)?),
            ["and", a, b] => And(number(a)?, number(b)?),
            ["or", a, b] => Or(number(a)?, number(b)?),
            ["next", a] => Next(number(a)?),
            ["always", a] => Always(number(a)?),
            ["ever", a] => Ever(number(a)?),
            ["weak", a, b] => Weak(number(a)?, number(b)?),
            ["until", a, b] => Until(number(a)?, number(b)?),
            ["release", a, b] => Release(number(a)?, number(b)?),
            ["srelease", a, b] => Srelease(number(a)?, number(b)?),
            _ => return None,
        })
    }

    /// The rows that this row speaks of.
    pub fn operands(self) -> Vec<usize> {
        match self {
            True | False | Sig(_) | Nsig(_) => vec![],
            Not(a) | Next(a) | Always(a) | Ever(a) => vec![a],
            And(a, b) | Or(a, b) | Weak(a, b) | Until(a, b) | Release(a, b) | Srelease(a, b) => vec![a, b],
        }
    }

    /// Whether the signal lies within 1 to `signals` and every operand below this row, which is the one numbered `own`.
    fn in_range(self, own: usize, signals: usize) -> bool {
        match self {
            Sig(s) | Nsig(s) => (1..=signals).contains(&s),
            _ => self.operands().iter().all(|operand| (1..own).contains(operand)),
        }
    }
}

impl Rule {
    /// Reads a rule file.
    pub fn read(bytes: &[u8]) -> Result<Rule, Refusal> {
        let mut lines = Lines::of(1, bytes)?;
        let signals = lines.count("signals", 1..=MOST_SIGNALS)?;
        let count = lines.count("rows", 1..=MOST_ROWS)?;
        let mut rows = Vec::new();
        for own in 1..=count {
            let row = lines.parsed(&format!("r{own}"), Row::parse)?;
            lines.require(row.in_range(own, signals), 5)?;
            rows.push(row);
        }
        lines.end()?;
        Ok(Rule { signals, rows })
    }
}

impl fmt::Display for Row {
    fn fmt(&self, f: &mut fmt::Formatter<'_>) -> fmt::Result {
        match self {
            True => write!(f, "true"),
            False => write!(f, "false"),
            Sig(s) => write!(f, "sig {s}"),
            Nsig(s) => write!(f, "nsig {s}"),
            Not(a) => write!(f, "not {a}"),
            And(a, b) => write!(f, "and {a} {b}"),
            Or(a, b) => write!(f, "or {a} {b}"),
            Next(a) => write!(f, "next {a}"),
            Always(a) => write!(f, "always {a}"),
            Ever(a) => write!(f, "ever {a}"),
            Weak(a, b) => write!(f, "weak {a} {b}"),
            Until(a, b) => write!(f, "until {a} {b}"),
            Release(a, b) => write!(f, "release {a} {b}"),
            Srelease(a, b) => write!(f, "srelease {a} {b}"),
        }
    }
}

/// The rule as a rule file.
impl fmt::Display for Rule {
    fn fmt(&self, f: &mut fmt::Formatter<'_>) -> fmt::Result {
        write!(f, "format=1\nsignals={}\nrows={}\n", self.signals, self.rows.len())?;
        (1..).zip(&self.rows).try_for_each(|(own, row)| writeln!(f, "r{own}={row}"))
    }
}
