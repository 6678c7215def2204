//! Why a call is turned back.

use std::fmt;

/// Why a call is turned back: one of eleven reasons, with the number that files and programs give it.
#[derive(Clone, Copy, Debug, PartialEq, Eq, PartialOrd, Ord, Hash)]
#[repr(u8)]
pub enum Reason {
    /// 1: the file is longer than 65,536 bytes.
    TooLong = 1,
    /// 2: a line is absent, surplus or not of the form given for its place. In [`step`](crate::step), [`run_cycle`](crate::run_cycle)
    /// and [`simulate`](crate::simulate) also, with no file: a byte is neither `'0'` nor `'1'`.
    WrongForm = 2,
    /// 3: the format is not 1.
    WrongFormat = 3,
    /// 4: a count lies outside its range. Of a run, with no file: its bytes are no state that calls lead to, or it has no cycle
    /// yet to give a verdict on.
    CountOutOfRange = 4,
    /// 5: a signal number is 0 or above `signals`, or an operand is 0 or not below its row.
    NumberOutOfRange = 5,
    /// 6: the loop's cycle is not below `cycles`.
    LoopOutOfRange = 6,
    /// 7: rule and take differ in `signals`; in [`step`](crate::step) and [`run_cycle`](crate::run_cycle), the number of signals
    /// is not the rule's; in [`simulate`](crate::simulate), that of inputs is not the circuit's.
    DifferentSignals = 7,
    /// 8: a looped service has an open take, or an open service a looped one.
    OtherKindOfTake = 8,
    /// 9: the sheet's rows or cycles differ from the normal form's or the take's; in [`step`](crate::step), the number of
    /// pendings or activators is not that of the normal form's rows; in [`simulate`](crate::simulate), that of latches is not the
    /// circuit's.
    DifferentSize = 9,
    /// 10: the lent output is shorter than what is to be written.
    OutputTooShort = 10,
    /// 11: a run has 256 cycles already, and one more is handed over.
    TooManyCycles = 11,
}

/// Which file is at fault.
#[derive(Clone, Copy, Debug, PartialEq, Eq, PartialOrd, Ord, Hash)]
pub enum File {
    /// File 1.
    Rule,
    /// File 2.
    Take,
    /// File 3.
    Sheet,
    /// File 1 of [`simulate`](crate::simulate), which has no other.
    Circuit,
}

/// A refusal: the first fault of a call. Files are read in the order rule, take, sheet.
///
/// ```
/// use citronhelm::{read_take, File, Reason, Refusal};
///
/// let take = b"format=1\nsignals=2\ncycles=1\nloop=none\nc0=012\n";
/// let refusal = Refusal { reason: Reason::WrongForm, file: Some(File::Take), line: 5 };
/// assert_eq!(read_take(take), Err(refusal));
/// assert_eq!(refusal.to_string(), "a line is absent, surplus or not of its form (refusal 2, take file, line 5)");
/// ```
#[derive(Clone, Copy, Debug, PartialEq, Eq, Hash)]
pub struct Refusal {
    /// The reason.
    pub reason: Reason,
    /// The file at fault, where one is.
    pub file: Option<File>,
    /// The line at fault, from 1; 0 where none is.
    pub line: u32,
}

impl Reason {
    /// All reasons, by their numbers.
    pub const ALL: [Reason; 11] = [
        Reason::TooLong,
        Reason::WrongForm,
        Reason::WrongFormat,
        Reason::CountOutOfRange,
        Reason::NumberOutOfRange,
        Reason::LoopOutOfRange,
        Reason::DifferentSignals,
        Reason::OtherKindOfTake,
        Reason::DifferentSize,
        Reason::OutputTooShort,
        Reason::TooManyCycles,
    ];

    /// The reason's number, 1 to 11.
    ///
    /// ```
    /// assert_eq!(citronhelm::Reason::WrongForm.number(), 2);
    /// ```
    pub fn number(self) -> u8 {
        self as u8
    }
}

impl File {
    /// The file's number, 1 to 3.
    ///
    /// ```
    /// assert_eq!(citronhelm::File::Sheet.number(), 3);
    /// ```
    pub fn number(self) -> u8 {
        match self {
            File::Rule | File::Circuit => 1,
            File::Take => 2,
            File::Sheet => 3,
        }
    }
}

impl Refusal {
    /// The same where the first file is a circuit.
    pub(crate) fn of_circuit(self) -> Refusal {
        Refusal { file: self.file.map(|_| File::Circuit), ..self }
    }
}

impl fmt::Display for Reason {
    fn fmt(&self, f: &mut fmt::Formatter<'_>) -> fmt::Result {
        f.write_str(match self {
            Reason::TooLong => "the file is longer than 65,536 bytes",
            Reason::WrongForm => "a line is absent, surplus or not of its form",
            Reason::WrongFormat => "the format is not 1",
            Reason::CountOutOfRange => "a count lies outside its range",
            Reason::NumberOutOfRange => "a signal or operand number is out of range",
            Reason::LoopOutOfRange => "the loop's cycle is not below the number of cycles",
            Reason::DifferentSignals => "the numbers of signals or inputs differ",
            Reason::OtherKindOfTake => "the take is of the other kind",
            Reason::DifferentSize => "the numbers of rows, cycles or latches differ",
            Reason::OutputTooShort => "the output is too short",
            Reason::TooManyCycles => "the run has 256 cycles already",
        })
    }
}

impl fmt::Display for File {
    fn fmt(&self, f: &mut fmt::Formatter<'_>) -> fmt::Result {
        f.write_str(match self {
            File::Rule => "rule",
            File::Take => "take",
            File::Sheet => "sheet",
            File::Circuit => "circuit",
        })
    }
}

impl fmt::Display for Refusal {
    fn fmt(&self, f: &mut fmt::Formatter<'_>) -> fmt::Result {
        write!(f, "{} (refusal {}", self.reason, self.reason.number())?;
        if let Some(file) = self.file {
            write!(f, ", {file} file")?;
        }
        if self.line > 0 {
            write!(f, ", line {}", self.line)?;
        }
        write!(f, ")")
    }
}

impl std::error::Error for Refusal {}

/// Takes a number that the library answers apart: its highest bit says that it is a refusal, with the reason in the lowest byte, the
/// file in the next and the line above.
pub(crate) fn answered(answer: u64) -> Result<u64, Refusal> {
    if answer >> 63 == 0 {
        return Ok(answer);
    }
    let [reason, file, ..] = answer.to_le_bytes();
    let reason = Reason::ALL.into_iter().find(|known| known.number() == reason).expect("reasons go from 1 to 11");
    let file = [File::Rule, File::Take, File::Sheet].into_iter().find(|known| known.number() == file);
    Err(Refusal { reason, file, line: (answer >> 16) as u32 })
}

/// The same for an answer that is a length or a count.
pub(crate) fn counted(answer: u64) -> Result<usize, Refusal> {
    answered(answer).map(|count| count as usize)
}

#[cfg(test)]
mod tests {
    use super::*;

    #[test]
    fn answers_are_taken_apart() {
        assert_eq!(answered(0), Ok(0));
        assert_eq!(answered(u64::MAX >> 1), Ok(u64::MAX >> 1));
        let of_take = Refusal { reason: Reason::WrongForm, file: Some(File::Take), line: 70_000 };
        assert_eq!(answered(1 << 63 | 70_000 << 16 | 2 << 8 | 2), Err(of_take));
        let of_call = Refusal { reason: Reason::OutputTooShort, file: None, line: 0 };
        assert_eq!(answered(1 << 63 | 10), Err(of_call));
    }

    #[test]
    fn reasons_are_numbered_from_one() {
        assert!((1..).zip(Reason::ALL).all(|(number, reason)| reason.number() == number));
    }
}
