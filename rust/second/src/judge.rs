//! Verdicts and their text.

use crate::normal::normal_form;
use crate::refusal::Refusal;
use crate::rule::Rule;
use crate::take::Take;
use crate::truth::{of_root, on_endless, strong};
use std::fmt;

/// What a take says of a rule: the first two for looped takes, the others for open ones.
#[derive(Clone, Copy, Debug, PartialEq, Eq)]
pub enum Verdict {
    /// The endless repetition satisfies the rule.
    Holds,
    /// It does not.
    Breaks,
    /// The normal form is strongly true.
    Kept,
    /// That of the negated rule is.
    Broken,
    /// Neither is.
    Open,
}

impl fmt::Display for Verdict {
    fn fmt(&self, f: &mut fmt::Formatter<'_>) -> fmt::Result {
        f.write_str(match self {
            Verdict::Holds => "holds",
            Verdict::Breaks => "breaks",
            Verdict::Kept => "kept",
            Verdict::Broken => "broken",
            Verdict::Open => "open",
        })
    }
}

/// The rule and the take of two files with equal signals.
pub fn read_pair(rule: &[u8], take: &[u8]) -> Result<(Rule, Take), Refusal> {
    let rule = Rule::read(rule)?;
    let take = Take::read(take)?;
    if rule.signals != take.signals {
        return Err(Refusal::of_call(7));
    }
    Ok((rule, take))
}

/// The verdict on a take whose loop begins at `start`: the rule as written, by the meaning.
pub fn looped(rule: &Rule, take: &Take, start: usize) -> Verdict {
    match of_root(&on_endless(rule, take, start)) {
        true => Verdict::Holds,
        false => Verdict::Breaks,
    }
}

/// The verdict on an open take.
pub fn open(rule: &Rule, take: &Take) -> Verdict {
    if of_root(&strong(&normal_form(rule, false), take)) {
        Verdict::Kept
    } else if of_root(&strong(&normal_form(rule, true), take)) {
        Verdict::Broken
    } else {
        Verdict::Open
    }
}

/// The verdict on either kind of take.
pub fn either(rule: &Rule, take: &Take) -> Verdict {
    match take.start {
        Some(start) => looped(rule, take, start),
        None => open(rule, take),
    }
}

/// What the program `judge` prints.
pub fn text(rule: &[u8], take: &[u8]) -> String {
    match read_pair(rule, take) {
        Err(refusal) => refusal.to_string(),
        Ok((rule, take)) => {
            let rows = normal_form(&rule, false).rows.len();
            let start = take.start.map_or("none".to_string(), |cycle| cycle.to_string());
            let (signals, cycles, verdict) = (take.signals, take.cycles.len(), either(&rule, &take));
            format!("signals={signals}\nrows={rows}\ncycles={cycles}\nloop={start}\nverdict={verdict}\n")
        }
    }
}
