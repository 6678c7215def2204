//! The implementations, called alike.

use crate::call::{Answer, Call, Outcome, Service};

/// Makes a call by a crate's functions; both crates have the same ones.
macro_rules! ask {
    ($services:ident, $call:expr) => {{
        let Call { service, inputs, negated, mut output } = $call.clone();
        let input = |number: usize| &inputs[number][..];
        let answer = match service {
            Service::ReadRule => answer($services::read_rule(input(0)), accepted),
            Service::ReadTake => answer($services::read_take(input(0)), accepted),
            Service::ReadSheet => answer($services::read_sheet(input(0)), accepted),
            Service::Bound => answer($services::bound(input(0)), Answer::Number),
            Service::Rows => answer($services::rows(input(0)), Answer::Number),
            Service::NormalLength => answer($services::normal_length(input(0), negated), Answer::Number),
            Service::Normal => answer($services::normal(input(0), negated, &mut output), Answer::Number),
            Service::Judge => answer($services::judge(input(0), input(1)), verdict),
            Service::JudgeLooped => answer($services::judge_looped(input(0), input(1)), verdict),
            Service::JudgeOpen => answer($services::judge_open(input(0), input(1)), verdict),
            Service::JudgeText => answer($services::judge_text(input(0), input(1), &mut output), Answer::Number),
            Service::Step => {
                answer($services::step(input(0), input(1), input(2), input(3), &mut output), Answer::Number)
            }
            Service::SheetLength => answer($services::sheet_length(input(0), input(1)), Answer::Number),
            Service::MakeSheet => answer($services::make_sheet(input(0), input(1), &mut output), made),
            Service::CheckSheet => answer($services::check_sheet(input(0), input(1), input(2)), Answer::from),
            Service::RunBegin => answer($services::run_begin(input(0), &mut output), Answer::Number),
            Service::RunCycle => answer($services::run_cycle(&mut output, input(0)), accepted),
            Service::RunVerdict => answer($services::run_verdict(input(0)), verdict),
            Service::Circuit => answer($services::circuit(input(0), &mut output), Answer::Number),
            Service::Simulate => answer($services::simulate(input(0), input(1), input(2), &mut output), Answer::Number),
        };
        Outcome { answer, inputs, output }
    }};
}

/// What the proved library answers and leaves.
pub fn by_proved(call: &Call) -> Outcome {
    ask!(citronhelm, call)
}

/// What the second implementation answers and leaves.
pub fn by_second(call: &Call) -> Outcome {
    ask!(second, call)
}

/// What the bit-parallel judge answers; it has that one service.
pub fn by_words(call: &Call) -> Outcome {
    let Call { inputs, output, .. } = call.clone();
    let answer = answer(bitparallel::judge(&inputs[0], &inputs[1]), verdict);
    Outcome { answer, inputs, output }
}

fn answer<T, R: Into<Answer>>(result: Result<T, R>, answered: impl FnOnce(T) -> Answer) -> Answer {
    result.map_or_else(Into::into, answered)
}

fn accepted((): ()) -> Answer {
    Answer::Accepted
}

fn verdict(verdict: impl ToString) -> Answer {
    Answer::Verdict(verdict.to_string())
}

fn made(length: Option<usize>) -> Answer {
    length.map_or(Answer::None, Answer::Number)
}

impl From<citronhelm::Refusal> for Answer {
    fn from(refusal: citronhelm::Refusal) -> Answer {
        let file = refusal.file.map_or(0, citronhelm::File::number);
        Answer::Refused(refusal.reason.number(), file, refusal.line)
    }
}

impl From<second::Refusal> for Answer {
    fn from(refusal: second::Refusal) -> Answer {
        Answer::Refused(refusal.number, refusal.file, refusal.line)
    }
}

impl From<citronhelm::Finding> for Answer {
    fn from(finding: citronhelm::Finding) -> Answer {
        use citronhelm::Finding::*;
        match finding {
            Root => Answer::Finding("root", 0, 0),
            Failed { row, cycle } => Answer::Finding("failed", row.into(), cycle as usize),
            Starved { row } => Answer::Finding("starved", row.into(), 0),
            Pending { row } => Answer::Finding("pending", row.into(), 0),
            Passes => Answer::Finding("passes", 0, 0),
        }
    }
}

impl From<second::Finding> for Answer {
    fn from(finding: second::Finding) -> Answer {
        use second::Finding::*;
        match finding {
            Root => Answer::Finding("root", 0, 0),
            Failed { row, cycle } => Answer::Finding("failed", row, cycle),
            Starved { row } => Answer::Finding("starved", row, 0),
            Pending { row } => Answer::Finding("pending", row, 0),
            Passes => Answer::Finding("passes", 0, 0),
        }
    }
}
