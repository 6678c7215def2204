//! Verdicts.

use std::fmt;

/// What a take says of a rule: the first two of a looped take, the others of an open one.
#[derive(Clone, Copy, Debug, PartialEq, Eq, PartialOrd, Ord, Hash)]
pub enum Verdict {
    /// The take's endless repetition satisfies the rule.
    Holds,
    /// It does not.
    Breaks,
    /// The open take shows that every continuation satisfies the rule: it is an informative prefix for it.
    Kept,
    /// It shows that no continuation does: it is an informative prefix for the negated rule.
    Broken,
    /// It shows neither.
    Open,
}

impl fmt::Display for Verdict {
    /// The word that files and programs use.
    ///
    /// ```
    /// assert_eq!(citronhelm::Verdict::Holds.to_string(), "holds");
    /// ```
    fn fmt(&self, f: &mut fmt::Formatter<'_>) -> fmt::Result {
        f.write_str(match self {
            Verdict::Holds => "holds",
            Verdict::Breaks => "breaks",
            Verdict::Kept => "kept",
            Verdict::Broken => "broken",
            Verdict::Open => "open",
        })
    }
}

impl Verdict {
    /// The verdict that the library numbers so.
    pub(crate) fn numbered(number: u64) -> Verdict {
        match number {
            1 => Verdict::Holds,
            2 => Verdict::Breaks,
            3 => Verdict::Kept,
            4 => Verdict::Broken,
            5 => Verdict::Open,
            _ => unreachable!("verdicts go from 1 to 5"),
        }
    }
}
