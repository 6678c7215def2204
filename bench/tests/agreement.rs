// The plain-Rust version held to the second implementation and to the library, on the calls by which these are held together
// (`../rust/compare`): the papers' cases, all small rules and takes, random ones, valid and damaged, runs, circuits, and nested rows.
use compare::{all_small, by_proved, by_second, nested_calls, papers_cases, random_calls, same, Answer, Call, Outcome, Service, Tally};
use plain::{checking, circuits, judging, making, monitors, normal, reading, rule, run, sheets, take};

fn refused(reading::Refusal { reason, file, line }: reading::Refusal) -> Answer {
    Answer::Refused(reason as u8, file as u8, line as u32)
}

fn verdict(verdict: judging::Verdict) -> Answer {
    Answer::Verdict(verdict.word().to_string())
}

fn finding(finding: checking::Finding) -> Answer {
    match finding {
        checking::Finding::Root => Answer::Finding("root", 0, 0),
        checking::Finding::Failed { row, cycle } => Answer::Finding("failed", row, cycle),
        checking::Finding::Starved { row } => Answer::Finding("starved", row, 0),
        checking::Finding::Pending { row } => Answer::Finding("pending", row, 0),
        checking::Finding::Passes => Answer::Finding("passes", 0, 0),
    }
}

/// The version makes its outputs; here they are put into the one that is lent.
fn put(bytes: &[u8], output: &mut [u8]) -> Answer {
    match output.get_mut(..bytes.len()) {
        Some(front) => {
            front.copy_from_slice(bytes);
            Answer::Number(bytes.len())
        }
        None => Answer::Refused(10, 0, 0),
    }
}

/// What the plain-Rust version answers and leaves. It has no services for the bound and the rows.
fn by_plain(call: &Call) -> Outcome {
    let Call { service, inputs, negated, mut output } = call.clone();
    let input = |number: usize| &inputs[number][..];
    let of = |file: u32| move |fault: reading::Fault| fault.of(file);
    let rows = || rule::read_rule(input(0)).map(|rule| (rule.rows.len(), rule::normal(&rule.rows, false).len()));
    let either = || {
        let judged = judging::judge_files(input(0), input(1), true);
        judged.or_else(|refusal| if refusal.reason == 8 { judging::judge_files(input(0), input(1), false) } else { Err(refusal) })
    };
    let answer = match service {
        Service::ReadRule => rule::read_rule(input(0)).map(|_| Answer::Accepted).map_err(of(1)),
        Service::ReadTake => take::read_take(input(0)).map(|_| Answer::Accepted).map_err(of(2)),
        Service::ReadSheet => sheets::read_sheet(input(0)).map(|_| Answer::Accepted).map_err(of(3)),
        Service::Bound => rows().map(|(rows, _)| Answer::Number(29 + 44 * rows)).map_err(of(1)),
        Service::Rows => rows().map(|(_, rows)| Answer::Number(rows)).map_err(of(1)),
        Service::Normal => normal::normal_file(input(0), negated).map(|bytes| put(&bytes, &mut output)),
        Service::NormalLength => normal::normal_length(input(0), negated).map(Answer::Number),
        Service::Judge => either().map(verdict),
        Service::JudgeLooped => judging::judge_files(input(0), input(1), true).map(verdict),
        Service::JudgeOpen => judging::judge_files(input(0), input(1), false).map(verdict),
        Service::JudgeText => Ok(put(judging::answer(input(0), input(1)).as_bytes(), &mut output)),
        Service::Step => monitors::step(input(0), input(1), input(2), input(3), &mut output).map(Answer::Number),
        Service::MakeSheet => {
            making::make_files(input(0), input(1)).map(|made| made.map_or(Answer::None, |text| put(text.as_bytes(), &mut output)))
        }
        Service::SheetLength => making::sheet_length(input(0), input(1)).map(Answer::Number),
        Service::CheckSheet => checking::check_files(input(0), input(1), input(2)).map(finding),
        Service::RunBegin => run::run_begin(input(0), &mut output).map(Answer::Number),
        Service::RunCycle => run::run_cycle(&mut output, input(0)).map(|()| Answer::Accepted),
        Service::RunVerdict => run::run_verdict(input(0)).map(verdict),
        Service::Circuit => circuits::circuit_file(input(0)).map(|bytes| put(&bytes, &mut output)),
        Service::Simulate => circuits::simulate(input(0), input(1), input(2), &mut output).map(Answer::Number),
    };
    Outcome { answer: answer.unwrap_or_else(refused), inputs, output }
}

/// The call by all three.
fn alike(call: &Call) -> Result<Outcome, String> {
    same(call, by_proved, by_second)?;
    same(call, by_proved, by_plain)
}

#[test]
fn the_papers_cases() {
    papers_cases(by_plain).unwrap();
}

#[test]
fn all_small_rules_and_takes() {
    all_small(&mut |call| alike(call).map(drop)).unwrap();
}

#[test]
fn random_files() {
    let mut tally = Tally::default();
    let mut make = |call: &Call| {
        tally.count(call.service, &alike(call)?);
        Ok(())
    };
    random_calls(7, 1_500, &mut make).unwrap();
    nested_calls(7, 1_500, &mut make).unwrap();
    println!("{tally}");
    assert_eq!(tally.faults(), [""; 0], "every answer is given");
}
