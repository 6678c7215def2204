// Judging.
use crate::reading::Refusal;
use crate::rule::{normal, Row, Rule};
use crate::take::{read_pair, Take};
use crate::truth::truths;

#[derive(Clone, Copy, Debug, PartialEq)]
pub enum Verdict {
    Holds,
    Breaks,
    Kept,
    Broken,
    Open,
}

impl Verdict {
    pub fn word(self) -> &'static str {
        match self {
            Verdict::Holds => "holds",
            Verdict::Breaks => "breaks",
            Verdict::Kept => "kept",
            Verdict::Broken => "broken",
            Verdict::Open => "open",
        }
    }
}

/// Whether the root of a normal form is true at cycle 0: on the endless repetition of a looped take, strongly on an open one.
fn root_holds(rows: &[Row], take: &Take) -> bool {
    truths(rows, take)[(rows.len() - 1) * take.cycles]
}

/// The rows of the normal form, and the verdict.
pub fn judge(rule: &Rule, take: &Take) -> (usize, Verdict) {
    let plain = normal(&rule.rows, false);
    let kept = root_holds(&plain, take);
    let verdict = match (take.loop_at, kept) {
        (Some(_), true) => Verdict::Holds,
        (Some(_), false) => Verdict::Breaks,
        (None, true) => Verdict::Kept,
        (None, false) if root_holds(&normal(&rule.rows, true), take) => Verdict::Broken,
        (None, false) => Verdict::Open,
    };
    (plain.len(), verdict)
}

/// The verdict on a rule and a looped take, or on a rule and an open one.
pub fn judge_files(rule: &[u8], take: &[u8], looped: bool) -> Result<Verdict, Refusal> {
    let (rule, take) = read_pair(rule, take)?;
    if take.loop_at.is_some() != looped {
        return Err(Refusal { reason: 8, file: 0, line: 0 });
    }
    Ok(judge(&rule, &take).1)
}

fn judged(rule: &[u8], take: &[u8]) -> Result<String, Refusal> {
    let (rule, take) = read_pair(rule, take)?;
    let (rows, verdict) = judge(&rule, &take);
    let end = take.loop_at.map_or("none".to_string(), |start| start.to_string());
    Ok(format!("signals={}\nrows={rows}\ncycles={}\nloop={end}\nverdict={}\n", rule.signals, take.cycles, verdict.word()))
}

/// What the program `judge` prints for these two files.
pub fn answer(rule: &[u8], take: &[u8]) -> String {
    judged(rule, take).unwrap_or_else(|refusal| refusal.text())
}
