//! Why a call is turned back.

use std::fmt;

/// A refusal: its number from 1 to 11, its file (1 rule or circuit, 2 take, 3 sheet, 0 none) and its line (from 1, 0 for none).
#[derive(Clone, Copy, Debug, PartialEq, Eq)]
pub struct Refusal {
    /// The number in the list of refusals.
    pub number: u8,
    /// The file at fault.
    pub file: u8,
    /// The line at fault.
    pub line: u32,
}

impl Refusal {
    /// A refusal that no file and no line is at fault for.
    pub(crate) fn of_call(number: u8) -> Self {
        Refusal { number, file: 0, line: 0 }
    }
}

/// The three lines that a program prints.
impl fmt::Display for Refusal {
    fn fmt(&self, f: &mut fmt::Formatter<'_>) -> fmt::Result {
        let Refusal { number, file, line } = self;
        writeln!(f, "refused={number}\nfile={file}\nline={line}")
    }
}
