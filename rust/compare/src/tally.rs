//! How often each service gave each answer and what its calls showed of padded numbers and of nested rows; what is possible, and what of
//! that never came.

use crate::call::{Answer, Outcome, Service};
use crate::nesting::{nested, Nested};
use crate::shown::{shown, Shown};
use std::collections::BTreeMap;
use std::fmt;

/// A kind of answer: a word, or a refusal's number and file.
#[derive(Clone, Debug, PartialEq, Eq, PartialOrd, Ord)]
pub enum Kind {
    Said(String),
    Refused(u8, u8),
}

/// The counts: every call by its answer; and what calls showed of padded numbers and of nested rows, none or more than one thing each.
#[derive(Default)]
pub struct Tally {
    answers: BTreeMap<(Service, Kind), u64>,
    padding: BTreeMap<(Service, Shown), u64>,
    nesting: BTreeMap<(Service, Nested), u64>,
}

const VERDICTS: &[&str] = &["holds", "breaks", "kept", "broken", "open"];
const FINDINGS: &[&str] = &["root", "failed", "failed later", "starved", "pending", "passes"];
const WORDS: &[&str] = &[
    "accepted",
    "number",
    "written",
    "holds",
    "breaks",
    "kept",
    "broken",
    "open",
    "no cycle yet",
    "none",
    "root",
    "failed",
    "failed later",
    "starved",
    "pending",
    "passes",
];

/// Refusals, as number and file.
type Refusals = &'static [(u8, u8)];

const RULE: Refusals = &[(1, 1), (2, 1), (3, 1), (4, 1), (5, 1)];
const TAKE: Refusals = &[(1, 2), (2, 2), (3, 2), (4, 2), (6, 2)];
const SHEET: Refusals = &[(1, 3), (2, 3), (3, 3), (4, 3)];
const CIRCUIT: Refusals = &[(1, 1), (2, 1)];
const CALL: Refusals = &[(2, 0), (4, 0), (7, 0), (8, 0), (9, 0), (10, 0), (11, 0)];

/// The answers that a service can give: words, and refusals of files and calls.
fn possible(service: Service) -> Vec<Kind> {
    let (words, files, calls): (&[&str], &[Refusals], &[u8]) = match service {
        Service::ReadRule => (&["accepted"], &[RULE], &[]),
        Service::ReadTake => (&["accepted"], &[TAKE], &[]),
        Service::ReadSheet => (&["accepted"], &[SHEET], &[]),
        Service::Bound | Service::Rows | Service::NormalLength => (&["number"], &[RULE], &[]),
        Service::Normal => (&["written"], &[RULE], &[10]),
        Service::Judge => (VERDICTS, &[RULE, TAKE], &[7]),
        Service::JudgeLooped => (&["holds", "breaks"], &[RULE, TAKE], &[7, 8]),
        Service::JudgeOpen => (&["kept", "broken", "open"], &[RULE, TAKE], &[7, 8]),
        Service::JudgeText => (VERDICTS, &[RULE, TAKE], &[7, 10]),
        Service::Step => (&["written"], &[RULE], &[2, 7, 9, 10]),
        Service::SheetLength => (&["number", "none"], &[RULE, TAKE], &[7]),
        Service::MakeSheet => (&["none", "written"], &[RULE, TAKE], &[7, 10]),
        Service::CheckSheet => (FINDINGS, &[RULE, TAKE, SHEET], &[7, 9]),
        Service::RunBegin => (&["written"], &[RULE], &[10]),
        Service::RunCycle => (&["accepted"], &[], &[2, 4, 7, 11]),
        Service::RunVerdict => (&["kept", "broken", "open", "no cycle yet"], &[], &[4]),
        Service::Circuit => (&["written"], &[RULE], &[10]),
        Service::Simulate => (&["written"], &[CIRCUIT], &[2, 7, 9, 10]),
    };
    let said = words.iter().map(|word| Kind::Said(word.to_string()));
    let of_files = files.concat().into_iter().map(|(number, file)| Kind::Refused(number, file));
    let of_calls = calls.iter().map(|number| Kind::Refused(*number, 0));
    said.chain(of_files).chain(of_calls).collect()
}

/// The kind of an answer. What `judge` prints counts as what it says, and a sheet's length of 0 as `none`; failures behind the take's last
/// cycle, in a later round of the loop, count apart, and so do calls for the verdict on a run that has no cycle yet.
fn kind(service: Service, outcome: &Outcome) -> Kind {
    let word = match &outcome.answer {
        Answer::Refused(4, 0, _) if service == Service::RunVerdict && is_run(&outcome.inputs[0]) => "no cycle yet",
        Answer::Refused(number, file, _) => return Kind::Refused(*number, *file),
        Answer::Number(length) if service == Service::JudgeText => return kind_of_text(&outcome.output[..*length]),
        Answer::Accepted => "accepted",
        Answer::Number(0) if service == Service::SheetLength => "none",
        Answer::Number(_) => match service {
            Service::Bound | Service::Rows | Service::NormalLength | Service::SheetLength => "number",
            _ => "written",
        },
        Answer::Verdict(word) => word,
        Answer::Finding("failed", _, cycle) if *cycle >= cycles(&outcome.inputs[1]) => "failed later",
        Answer::Finding(word, _, _) => word,
        Answer::None => "none",
    };
    Kind::Said(word.to_string())
}

/// The cycles of a valid take: its lines but for the first four.
fn cycles(take: &[u8]) -> usize {
    take.iter().filter(|byte| **byte == b'\n').count() - 4
}

/// Whether bytes are a run: a cycle with a byte that is no digit is then refused for that byte.
fn is_run(bytes: &[u8]) -> bool {
    second::run_cycle(&mut bytes.to_vec(), b"-").is_err_and(|refusal| refusal.number == 2)
}

/// What a text of `judge` says.
fn kind_of_text(text: &[u8]) -> Kind {
    let text = String::from_utf8_lossy(text);
    let value = |key: &str| text.lines().find_map(|line| line.strip_prefix(key));
    let number = |key: &str| value(key).and_then(|value| value.parse().ok()).unwrap_or(0);
    match value("verdict=") {
        Some(verdict) => Kind::Said(verdict.to_string()),
        None => Kind::Refused(number("refused="), number("file=")),
    }
}

impl Tally {
    /// Counts an outcome.
    pub fn count(&mut self, service: Service, outcome: &Outcome) {
        let kind = kind(service, outcome);
        let answered = matches!(kind, Kind::Said(_));
        for shown in shown(service, outcome, answered) {
            *self.padding.entry((service, shown)).or_default() += 1;
        }
        if answered {
            for nested in nested(service, outcome) {
                *self.nesting.entry((service, nested)).or_default() += 1;
            }
        }
        *self.answers.entry((service, kind)).or_default() += 1;
    }

    /// All calls.
    pub fn calls(&self) -> u64 {
        self.answers.values().sum()
    }

    /// The calls that were answered on files of which at least one had padded numbers.
    pub fn padded_calls(&self) -> u64 {
        Service::ALL.iter().map(|service| get(&self.padding, *service, &Shown::Read)).sum()
    }

    /// The faults of the whole: possible answers that never came, and answers that are not possible; and the same of what is shown.
    pub fn faults(&self) -> Vec<String> {
        let mut faults = Vec::new();
        for service in Service::ALL {
            faults.extend(faults_of(&self.answers, service, &possible(service), "answer"));
            faults.extend(faults_of(&self.padding, service, &showable(service), "show"));
            faults.extend(faults_of(&self.nesting, service, &nestable(service), "show"));
        }
        faults
    }
}

/// What calls of a service can show of padded numbers.
fn showable(service: Service) -> Vec<Shown> {
    Shown::ALL.into_iter().filter(|shown| shown.can_be_of(service)).collect()
}

/// What calls of a service can show of nested rows.
fn nestable(service: Service) -> Vec<Nested> {
    Nested::ALL.into_iter().filter(|nested| nested.can_be_of(service)).collect()
}

fn get<T: Ord + Clone>(counts: &BTreeMap<(Service, T), u64>, service: Service, thing: &T) -> u64 {
    counts.get(&(service, thing.clone())).copied().unwrap_or(0)
}

/// What a service never did of the possible, and what it did beside that.
fn faults_of<T: Ord + Clone + fmt::Display>(
    counts: &BTreeMap<(Service, T), u64>,
    service: Service,
    possible: &[T],
    verb: &str,
) -> Vec<String> {
    let missing = possible.iter().filter(|thing| get(counts, service, thing) == 0);
    let strange = counts.keys().filter(|(of, thing)| *of == service && !possible.contains(thing));
    let missing = missing.map(|thing| format!("{service:?} never {verb}ed: {thing}"));
    missing.chain(strange.map(|(_, thing)| format!("{service:?} cannot {verb}: {thing}"))).collect()
}

/// The lines of the table for these things: a count for each service, `-` where it is not possible.
fn lines<T: Ord + Clone + fmt::Display>(
    f: &mut fmt::Formatter<'_>,
    counts: &BTreeMap<(Service, T), u64>,
    things: &[T],
    possible: fn(Service) -> Vec<T>,
) -> fmt::Result {
    for thing in things {
        write!(f, "{:17}", thing.to_string())?;
        for service in Service::ALL {
            match possible(service).contains(thing) {
                true => write!(f, " {:>7}", get(counts, service, thing))?,
                false => write!(f, " {:>7}", "-")?,
            }
        }
        writeln!(f)?;
    }
    Ok(())
}

impl fmt::Display for Kind {
    fn fmt(&self, f: &mut fmt::Formatter<'_>) -> fmt::Result {
        match self {
            Kind::Said(word) => f.write_str(word),
            Kind::Refused(number, 0) => write!(f, "refused {number}"),
            Kind::Refused(number, file) => write!(f, "refused {number}, file {file}"),
        }
    }
}

impl fmt::Display for Tally {
    fn fmt(&self, f: &mut fmt::Formatter<'_>) -> fmt::Result {
        write!(f, "{:17}", "")?;
        Service::ALL.iter().try_for_each(|service| write!(f, " {service:>7}"))?;
        writeln!(f)?;
        let words = WORDS.iter().map(|word| Kind::Said(word.to_string()));
        let refusals = [RULE, TAKE, SHEET, CALL].concat().into_iter().map(|(number, file)| Kind::Refused(number, file));
        lines(f, &self.answers, &words.chain(refusals).collect::<Vec<_>>(), possible)?;
        lines(f, &self.padding, &Shown::ALL, showable)?;
        lines(f, &self.nesting, &Nested::ALL, nestable)
    }
}

#[cfg(test)]
mod tests {
    use super::*;

    fn outcome(answer: Answer) -> Outcome {
        Outcome { answer, inputs: vec![vec![]; 3], output: vec![] }
    }

    #[test]
    fn what_never_came_is_a_fault() {
        let mut tally = Tally::default();
        let before = tally.faults();
        assert!(before.contains(&"ReadRule never answered: refused 5, file 1".to_string()));
        tally.count(Service::ReadRule, &outcome(Answer::Refused(5, 1, 7)));
        assert_eq!(tally.faults().len(), before.len() - 1);
    }

    #[test]
    fn what_cannot_come_is_a_fault() {
        let mut tally = Tally::default();
        tally.count(Service::JudgeLooped, &outcome(Answer::Verdict("open".to_string())));
        assert!(tally.faults().contains(&"JudgeLooped cannot answer: open".to_string()));
    }

    #[test]
    fn what_was_never_shown_is_a_fault() {
        let mut tally = Tally::default();
        let missing = "ReadTake never showed: padded, loop 0".to_string();
        assert!(tally.faults().contains(&missing));
        let take = b"format=1\nsignals=1\ncycles=1\nloop=00000\nc0=1\n".to_vec();
        tally.count(Service::ReadTake, &Outcome { inputs: vec![take], ..outcome(Answer::Accepted) });
        assert!(!tally.faults().contains(&missing));
        assert_eq!((tally.calls(), tally.padded_calls()), (1, 1));
    }

    #[test]
    fn a_length_of_0_is_none() {
        let of = |service, length| kind(service, &outcome(Answer::Number(length)));
        assert_eq!(of(Service::SheetLength, 0), Kind::Said("none".to_string()));
        assert_eq!(of(Service::SheetLength, 55), Kind::Said("number".to_string()));
        assert_eq!(of(Service::NormalLength, 77), Kind::Said("number".to_string()));
    }

    #[test]
    fn texts_count_as_what_they_say() {
        assert_eq!(kind_of_text(b"signals=1\nverdict=kept\n"), Kind::Said("kept".to_string()));
        assert_eq!(kind_of_text(b"refused=6\nfile=2\nline=4\n"), Kind::Refused(6, 2));
    }
}
