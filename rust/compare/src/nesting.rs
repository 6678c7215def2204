//! What calls show of rules with many rows on one branch that look ahead: that these are answered on looped takes.

use crate::call::{Outcome, Service};
use std::fmt;

/// What a call can show.
#[derive(Clone, Copy, Debug, PartialEq, Eq, PartialOrd, Ord)]
pub enum Nested {
    /// At least so many rows on one branch look ahead.
    Ahead(usize),
    /// At least so many rows on one branch are `next`, and the loop has one cycle.
    Next(usize),
}

use Nested::*;

impl Nested {
    /// Everything, in the order of the table of counts.
    pub const ALL: [Nested; 4] = [Ahead(3), Ahead(10), Ahead(50), Next(3)];

    /// Whether a call of this service can show it.
    pub fn can_be_of(self, service: Service) -> bool {
        use Service::*;
        matches!(service, Judge | JudgeLooped | SheetLength | MakeSheet | CheckSheet)
    }
}

/// What is shown by a call that was answered.
pub fn nested(service: Service, outcome: &Outcome) -> Vec<Nested> {
    let mut all = Nested::ALL.to_vec();
    all.retain(|nested| nested.can_be_of(service));
    if all.is_empty() {
        return all;
    }
    let [rule, take] = [0, 1].map(|number| String::from_utf8_lossy(&outcome.inputs[number]));
    let Some(cycles) = cycles_in_loop(&take) else { return vec![] };
    let (ahead, next) = (most_on_a_branch(&rule, looks_ahead), most_on_a_branch(&rule, |word| word == "next"));
    all.retain(|nested| match *nested {
        Ahead(rows) => ahead >= rows,
        Next(rows) => next >= rows && cycles == 1,
    });
    all
}

/// The cycles in the loop of a valid take, if it has one.
fn cycles_in_loop(take: &str) -> Option<usize> {
    let number = |line: usize| value(take.lines().nth(line)?).parse::<usize>().ok();
    Some(number(2)? - number(3)?)
}

/// How many of the counted words are on one branch of a valid rule, at most.
fn most_on_a_branch(rule: &str, counted: fn(&str) -> bool) -> usize {
    let mut most: Vec<usize> = Vec::new();
    for line in rule.lines().skip(3) {
        let (word, numbers) = value(line).split_once(' ').unwrap_or((value(line), ""));
        let operands = if matches!(word, "sig" | "nsig") { "" } else { numbers };
        let below = operands.split_terminator(' ').map(|n| most[n.parse::<usize>().expect("an operand") - 1]).max();
        most.push(below.unwrap_or(0) + usize::from(counted(word)));
    }
    most[most.len() - 1]
}

fn looks_ahead(word: &str) -> bool {
    matches!(word, "next" | "always" | "ever" | "weak" | "until" | "release" | "srelease")
}

fn value(line: &str) -> &str {
    line.split_once('=').expect("each line has a value").1
}

/// A few words, for the table of counts.
impl fmt::Display for Nested {
    fn fmt(&self, f: &mut fmt::Formatter<'_>) -> fmt::Result {
        match self {
            Ahead(rows) => write!(f, "{rows} nested, loop"),
            Next(rows) => write!(f, "{rows} next, 1 cycle"),
        }
    }
}

#[cfg(test)]
mod tests {
    use super::*;
    use crate::implementations::by_second;

    /// What a verdict shows.
    fn of(rows: &[&str], start: &str, cycles: &[&str]) -> Vec<Nested> {
        let (rule, take) = (crate::files::rule(1, rows), crate::files::take(start, cycles));
        nested(Service::Judge, &by_second(&Service::Judge.of(&[&rule, &take])))
    }

    #[test]
    fn rows_on_one_branch_are_counted() {
        let chain = ["sig 1", "next 1", "not 2", "next 3", "next 4"];
        assert_eq!(of(&chain, "1", &["0", "1"]), [Ahead(3), Next(3)]);
        assert_eq!(of(&chain, "0", &["0", "1"]), [Ahead(3)]);
        assert_eq!(of(&chain, "none", &["0", "1"]), []);
        assert_eq!(of(&["true", "until 1 1", "always 2", "or 3 2", "release 1 4"], "0", &["0"]), [Ahead(3)]);
        assert_eq!(of(&["sig 1", "ever 1", "next 1", "next 1", "and 3 4", "until 2 5"], "0", &["0"]), []);
        assert_eq!(
            of(&["sig 1", "next 1", "next 2", "next 3", "sig 1"], "0", &["0"]),
            [],
            "the root does not reach them"
        );
    }
}
