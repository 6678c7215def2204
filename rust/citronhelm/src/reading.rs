//! Reading, and what is said of a rule alone: its normal form.

use crate::declarations;
use crate::refusal::{answered, counted, Refusal};

/// The bytes that any normal form needs at most.
pub const MOST_NORMAL: usize = 2845;

/// Reads a rule file.
///
/// ```
/// use citronhelm::{read_rule, Reason};
///
/// assert_eq!(read_rule(b"format=1\nsignals=1\nrows=2\nr1=sig 1\nr2=always 1\n"), Ok(()));
/// let refusal = read_rule(b"format=1\nsignals=1\nrows=2\nr1=sig 1\nr2=always 2\n").unwrap_err();
/// assert_eq!((refusal.reason, refusal.line), (Reason::NumberOutOfRange, 5));
/// ```
pub fn read_rule(rule: &[u8]) -> Result<(), Refusal> {
    answered(declarations::read_rule(rule)).map(|_| ())
}

/// Reads a take file.
///
/// ```
/// use citronhelm::{read_take, Reason};
///
/// assert_eq!(read_take(b"format=1\nsignals=2\ncycles=1\nloop=0\nc0=10\n"), Ok(()));
/// let refusal = read_take(b"format=1\nsignals=2\ncycles=1\nloop=1\nc0=10\n").unwrap_err();
/// assert_eq!((refusal.reason, refusal.line), (Reason::LoopOutOfRange, 4));
/// ```
pub fn read_take(take: &[u8]) -> Result<(), Refusal> {
    answered(declarations::read_take(take)).map(|_| ())
}

/// Reads a sheet file.
///
/// ```
/// use citronhelm::{read_sheet, Reason};
///
/// assert_eq!(read_sheet(b"format=1\nrows=1\ncycles=2\nz1=10\n"), Ok(()));
/// let refusal = read_sheet(b"format=1\nrows=129\ncycles=2\n").unwrap_err();
/// assert_eq!((refusal.reason, refusal.line), (Reason::CountOutOfRange, 2));
/// ```
pub fn read_sheet(sheet: &[u8]) -> Result<(), Refusal> {
    answered(declarations::read_sheet(sheet)).map(|_| ())
}

/// A bound on the length of a rule's normal form as a file: 29 + 44 × the rule's rows, never less than its length.
///
/// ```
/// assert_eq!(citronhelm::bound(b"format=1\nsignals=1\nrows=2\nr1=sig 1\nr2=always 1\n"), Ok(117));
/// ```
pub fn bound(rule: &[u8]) -> Result<usize, Refusal> {
    counted(declarations::bound(rule))
}

/// The number of rows in a rule's normal form, 1 to 128.
///
/// ```
/// let rule = b"format=1\nsignals=2\nrows=6\n\
///     r1=sig 1\nr2=not 1\nr3=sig 2\nr4=ever 3\nr5=or 2 4\nr6=always 5\n";
/// assert_eq!(citronhelm::rows(rule), Ok(5));
/// ```
pub fn rows(rule: &[u8]) -> Result<usize, Refusal> {
    counted(declarations::rows(rule))
}

/// The exact length of the normal form of a rule, or of the negated rule, as a file. An output of that length does for [`normal`], and one
/// that is a byte shorter does not. Refused as [`normal`] is, but for an output that is too short.
///
/// ```
/// use citronhelm::{normal, normal_length, Reason};
///
/// let rule = b"format=1\nsignals=2\nrows=6\n\
///     r1=sig 1\nr2=not 1\nr3=sig 2\nr4=ever 3\nr5=or 2 4\nr6=always 5\n";
/// let expected = b"format=1\nsignals=2\nrows=5\n\
///     r1=nsig 1\nr2=sig 2\nr3=ever 2\nr4=or 1 3\nr5=always 4\n";
/// let length = normal_length(rule, false)?;
/// assert_eq!(length, 77);
/// let mut output = vec![0; length];
/// assert_eq!(normal(rule, false, &mut output[1..]).unwrap_err().reason, Reason::OutputTooShort);
/// assert_eq!(normal(rule, false, &mut output), Ok(length));
/// assert_eq!(output, expected);
/// # Ok::<(), citronhelm::Refusal>(())
/// ```
pub fn normal_length(rule: &[u8], negated: bool) -> Result<usize, Refusal> {
    counted(declarations::normal_length(rule, negated))
}

/// Writes the normal form of a rule, or of the negated rule, as a rule file, and answers its length, [`normal_length`]: at most [`bound`]
/// of the rule, at most [`MOST_NORMAL`] for any.
///
/// ```
/// use citronhelm::{normal, Reason, MOST_NORMAL};
///
/// let rule = b"format=1\nsignals=2\nrows=6\n\
///     r1=sig 1\nr2=not 1\nr3=sig 2\nr4=ever 3\nr5=or 2 4\nr6=always 5\n";
/// let expected = b"format=1\nsignals=2\nrows=5\n\
///     r1=nsig 1\nr2=sig 2\nr3=ever 2\nr4=or 1 3\nr5=always 4\n";
/// let mut output = [0; MOST_NORMAL];
/// assert_eq!(normal(rule, false, &mut output), Ok(expected.len()));
/// assert_eq!(&output[..expected.len()], expected);
/// assert_eq!(normal(rule, false, &mut output[1..expected.len()]).unwrap_err().reason, Reason::OutputTooShort);
/// ```
pub fn normal(rule: &[u8], negated: bool, output: &mut [u8]) -> Result<usize, Refusal> {
    counted(declarations::normal(rule, negated, output))
}

/// The normal form of a rule, or of the negated rule, as a rule file.
///
/// ```
/// let rule = b"format=1\nsignals=1\nrows=2\nr1=sig 1\nr2=always 1\n";
/// assert_eq!(citronhelm::normal_vec(rule, true).unwrap(), b"format=1\nsignals=1\nrows=2\nr1=nsig 1\nr2=ever 1\n");
/// ```
pub fn normal_vec(rule: &[u8], negated: bool) -> Result<Vec<u8>, Refusal> {
    let mut output = vec![0; normal_length(rule, negated)?];
    normal(rule, negated, &mut output)?;
    Ok(output)
}

#[cfg(test)]
mod tests {
    use super::*;
    use crate::refusal::{File, Reason};

    #[test]
    fn padded_files_have_the_normal_form_of_the_unpadded() {
        let rule = b"format=1\nsignals=2\nrows=3\nr1=sig 1\nr2=nsig 2\nr3=until 1 2\n";
        let padded = b"format=00001\nsignals=002\nrows=0003\nr1=sig 01\nr2=nsig 00002\nr3=until 0001 02\n";
        for negated in [false, true] {
            assert_eq!(normal_vec(padded, negated), normal_vec(rule, negated));
        }
    }

    #[test]
    fn padded_keys_are_refused_at_their_lines() {
        let at = |file, line| Err(Refusal { reason: Reason::WrongForm, file: Some(file), line });
        assert_eq!(read_rule(b"format=1\nsignals=1\nrows=2\nr1=sig 1\nr02=always 1\n"), at(File::Rule, 5));
        assert_eq!(read_take(b"format=1\nsignals=2\ncycles=1\nloop=none\nc00=10\n"), at(File::Take, 5));
        assert_eq!(read_sheet(b"format=1\nrows=1\ncycles=2\nz00001=10\n"), at(File::Sheet, 4));
    }
}
