//! Activator sheets: making and checking.

use crate::declarations;
use crate::finding::Finding;
use crate::refusal::{answered, counted, Refusal};

/// The bytes that [`make_sheet`] needs at most.
pub const MOST_SHEET: usize = 33567;

/// The exact length of the activator sheet of a rule and a take as a file; 0 where there is none. An output of that length does for
/// [`make_sheet`] in either case, and one that is a byte shorter does not. Refused as [`make_sheet`] is, but for an output that is too short.
///
/// ```
/// use citronhelm::{make_sheet, sheet_length, Reason};
///
/// let rule = b"format=1\nsignals=2\nrows=6\n\
///     r1=sig 1\nr2=not 1\nr3=sig 2\nr4=ever 3\nr5=or 2 4\nr6=always 5\n";
/// let take = b"format=1\nsignals=2\ncycles=2\nloop=0\nc0=10\nc1=01\n";
/// let length = sheet_length(rule, take)?;
/// let mut output = vec![0; length];
/// assert_eq!(make_sheet(rule, take, &mut output[1..]).unwrap_err().reason, Reason::OutputTooShort);
/// assert_eq!(make_sheet(rule, take, &mut output), Ok(Some(length)));
/// assert_eq!(output, b"format=1\nrows=5\ncycles=2\nz1=01\nz2=01\nz3=11\nz4=11\nz5=11\n");
///
/// let breaking = b"format=1\nsignals=2\ncycles=2\nloop=1\nc0=10\nc1=10\n";
/// assert_eq!(sheet_length(rule, breaking), Ok(0));
/// # Ok::<(), citronhelm::Refusal>(())
/// ```
pub fn sheet_length(rule: &[u8], take: &[u8]) -> Result<usize, Refusal> {
    counted(declarations::sheet_length(rule, take))
}

/// Writes the activator sheet of a rule and a take as a sheet file, with a 1 where a row of the normal form is true at a cycle
/// (strongly, for an open take), and answers its length, [`sheet_length`]: at most [`MOST_SHEET`]. Where the rule does not hold or is
/// not kept the answer is `None`, and nothing is written, whatever the length of the output.
///
/// ```
/// use citronhelm::make_sheet;
///
/// let rule = b"format=1\nsignals=2\nrows=6\n\
///     r1=sig 1\nr2=not 1\nr3=sig 2\nr4=ever 3\nr5=or 2 4\nr6=always 5\n";
/// let breaking = b"format=1\nsignals=2\ncycles=2\nloop=1\nc0=10\nc1=10\n";
/// assert_eq!(make_sheet(rule, breaking, &mut []), Ok(None));
/// ```
pub fn make_sheet(rule: &[u8], take: &[u8], output: &mut [u8]) -> Result<Option<usize>, Refusal> {
    let length = counted(declarations::make_sheet(rule, take, output))?;
    Ok((length > 0).then_some(length))
}

/// The activator sheet of a rule and a take as a sheet file, or `None`.
///
/// ```
/// use citronhelm::make_sheet_vec;
///
/// let rule = b"format=1\nsignals=2\nrows=6\n\
///     r1=sig 1\nr2=not 1\nr3=sig 2\nr4=ever 3\nr5=or 2 4\nr6=always 5\n";
/// let take = b"format=1\nsignals=2\ncycles=2\nloop=0\nc0=10\nc1=01\n";
/// let sheet = b"format=1\nrows=5\ncycles=2\nz1=01\nz2=01\nz3=11\nz4=11\nz5=11\n";
/// assert_eq!(make_sheet_vec(rule, take).unwrap().unwrap(), sheet);
/// ```
pub fn make_sheet_vec(rule: &[u8], take: &[u8]) -> Result<Option<Vec<u8>>, Refusal> {
    let mut output = vec![0; sheet_length(rule, take)?];
    let made = make_sheet(rule, take, &mut output)?;
    Ok(made.map(|_| output))
}

/// What a check of a sheet for a rule and a take finds.
///
/// ```
/// use citronhelm::{check_sheet, Finding};
///
/// let rule = b"format=1\nsignals=2\nrows=6\n\
///     r1=sig 1\nr2=not 1\nr3=sig 2\nr4=ever 3\nr5=or 2 4\nr6=always 5\n";
/// let take = b"format=1\nsignals=2\ncycles=2\nloop=0\nc0=10\nc1=01\n";
/// let starved = b"format=1\nrows=5\ncycles=2\nz1=01\nz2=00\nz3=11\nz4=11\nz5=11\n";
/// assert_eq!(check_sheet(rule, take, starved), Ok(Finding::Starved { row: 3 }));
/// ```
pub fn check_sheet(rule: &[u8], take: &[u8], sheet: &[u8]) -> Result<Finding, Refusal> {
    answered(declarations::check_sheet(rule, take, sheet)).map(Finding::numbered)
}
