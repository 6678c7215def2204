//! Verdicts on a rule and a take.

use crate::declarations;
use crate::refusal::{answered, counted, Refusal};
use crate::verdict::Verdict;

/// The bytes that [`judge_text`] needs at most.
pub const MOST_TEXT: usize = 64;

/// The verdict on a rule and a take of either kind.
///
/// ```
/// use citronhelm::{judge, Verdict};
///
/// let rule = b"format=1\nsignals=2\nrows=6\n\
///     r1=sig 1\nr2=not 1\nr3=sig 2\nr4=ever 3\nr5=or 2 4\nr6=always 5\n";
/// let take = b"format=1\nsignals=2\ncycles=2\nloop=1\nc0=10\nc1=10\n";
/// assert_eq!(judge(rule, take), Ok(Verdict::Breaks));
/// ```
pub fn judge(rule: &[u8], take: &[u8]) -> Result<Verdict, Refusal> {
    answered(declarations::judge(rule, take)).map(Verdict::numbered)
}

/// The verdict on a rule and a looped take; an open one is refused.
///
/// ```
/// use citronhelm::{judge_looped, Reason};
///
/// let rule = b"format=1\nsignals=1\nrows=2\nr1=sig 1\nr2=always 1\n";
/// let open = b"format=1\nsignals=1\ncycles=1\nloop=none\nc0=1\n";
/// assert_eq!(judge_looped(rule, open).unwrap_err().reason, Reason::OtherKindOfTake);
/// ```
pub fn judge_looped(rule: &[u8], take: &[u8]) -> Result<Verdict, Refusal> {
    answered(declarations::judge_looped(rule, take)).map(Verdict::numbered)
}

/// The verdict on a rule and an open take; a looped one is refused.
///
/// ```
/// use citronhelm::{judge_open, Verdict};
///
/// let rule = b"format=1\nsignals=1\nrows=2\nr1=sig 1\nr2=always 1\n";
/// let take = b"format=1\nsignals=1\ncycles=2\nloop=none\nc0=1\nc1=0\n";
/// assert_eq!(judge_open(rule, take), Ok(Verdict::Broken));
/// ```
pub fn judge_open(rule: &[u8], take: &[u8]) -> Result<Verdict, Refusal> {
    answered(declarations::judge_open(rule, take)).map(Verdict::numbered)
}

/// Writes what the program `judge` prints for the two files, be it a verdict or a refusal, and answers its length, at most
/// [`MOST_TEXT`]. Only a short output is refused.
///
/// ```
/// use citronhelm::{judge_text, MOST_TEXT};
///
/// let mut output = [0; MOST_TEXT];
/// let length = judge_text(b"format=1\nsignals=0\n", b"", &mut output).unwrap();
/// assert_eq!(&output[..length], b"refused=4\nfile=1\nline=2\n");
/// ```
pub fn judge_text(rule: &[u8], take: &[u8], output: &mut [u8]) -> Result<usize, Refusal> {
    counted(declarations::judge_text(rule, take, output))
}
