//! The papers' cases, with the answers that they give.

use crate::call::{Answer, Call, Service};
use crate::comparison::Implementation;
use crate::files::{rule, sheet, take};
use crate::runs::after_cycles;
use citronhelm::RUN;

/// A call, its answer, and what is written if something is.
struct Case(Call, Answer, &'static str);

/// Always, when signal 1, sooner or later signal 2.
const A: &[&str] = &["sig 1", "not 1", "sig 2", "ever 3", "or 2 4", "always 5"];
/// Always, not signal 1 or next signal 2.
const A_NEXT: &[&str] = &["sig 1", "not 1", "sig 2", "next 3", "or 2 4", "always 5"];
const UNTIL: &[&str] = &["sig 1", "sig 2", "until 1 2"];
const WEAK: &[&str] = &["sig 1", "sig 2", "weak 1 2"];
const NEXT: &[&str] = &["sig 1", "next 1"];
const ALWAYS_TRUE: &[&str] = &["true", "always 1"];

const NORMAL_A: &str = "format=1\nsignals=2\nrows=5\nr1=nsig 1\nr2=sig 2\nr3=ever 2\nr4=or 1 3\nr5=always 4\n";
const SHEET_A: &str = "format=1\nrows=5\ncycles=2\nz1=01\nz2=01\nz3=11\nz4=11\nz5=11\n";
const CIRCUIT_A: &str = "aag 27 7 5 15 15\n2\n4\n6\n8\n10\n12\n14\n16 0\n18 0\n20 40\n22 0\n24 51\n26\n32\n0\n46\n52\n1\n1\n41\n1\n1\n\
    0\n0\n40\n0\n51\n26 6 2\n28 0 0\n30 0 0\n32 8 5\n34 0 0\n36 0 0\n38 11 21\n40 39 9\n42 0 0\n44 7 11\n46 12 44\n48 0 0\n50 15 25\n\
    52 51 13\n54 0 0\n";
const TEXT_A: &str = "signals=2\nrows=5\ncycles=2\nloop=0\nverdict=holds\n";

/// Rule A, a take and their sheet as the bench pads them.
const PADDED_A: &str =
    "format=00001\nsignals=00002\nrows=00006\nr1=sig 00001\nr2=not 00001\nr3=sig 00002\nr4=ever 00003\n\
    r5=or 00002 00004\nr6=always 00005\n";
const PADDED_TAKE: &str = "format=00001\nsignals=00002\ncycles=00002\nloop=00000\nc0=10\nc1=01\n";
const PADDED_SHEET: &str = "format=00001\nrows=00005\ncycles=00002\nz1=01\nz2=01\nz3=11\nz4=11\nz5=11\n";

/// One of these files, a text in it and another in the place of that, and the number and line of the refusal.
const WRONG_PADDING: &[(u8, &str, &str, u8, u32)] = &[
    (1, "format=00001", "format=00002", 3, 1),
    (1, "rows=00006", "rows=00000", 4, 3),
    (1, "rows=00006", "rows=00065", 4, 3),
    (1, "rows=00006", "rows=000006", 2, 3),
    (1, "sig 00002", "sig 00003", 5, 6),
    (1, "or 00002 00004", "and 00000 1", 5, 8),
    (1, "or 00002 00004", "or 00002 00005", 5, 8),
    (1, "or 00002 00004", "or 00005 000004", 2, 8),
    (1, "r6=", "r06=", 2, 9),
    (2, "cycles=00002", "cycles=000002", 2, 3),
    (2, "loop=00000", "loop=00002", 6, 4),
    (2, "loop=00000", "loop=000000", 2, 4),
    (2, "c0=", "c00=", 2, 5),
    (2, "c1=01", "c1=001", 2, 6),
    (3, "cycles=00002", "cycles=00257", 4, 3),
    (3, "z1=", "z01=", 2, 4),
    (3, "z2=01", "z2=00001", 2, 5),
];

/// The format report's or-gate and toggle flip-flop.
const OR: &str = "aag 3 2 0 1 1\n2\n4\n7\n6 3 5\n";
const TOGGLE: &str = "aag 1 0 1 2 0\n2 3\n2\n3\n";

/// Rule, loop, cycles, verdict.
const VERDICTS: &[(&[&str], &str, &[&str], &str)] = &[
    (A, "0", &["10", "01"], "holds"),
    (A, "1", &["10", "10"], "breaks"),
    (A, "none", &["10"], "open"),
    (A_NEXT, "none", &["10", "00"], "broken"),
    (A_NEXT, "none", &["10"], "open"),
    (UNTIL, "none", &["10", "01"], "kept"),
    (UNTIL, "none", &["10", "00"], "broken"),
    (UNTIL, "none", &["10", "10"], "open"),
    (UNTIL, "0", &["10"], "breaks"),
    (WEAK, "0", &["10"], "holds"),
    (ALWAYS_TRUE, "none", &["0"], "open"),
    (NEXT, "0", &["1"], "holds"),
    (NEXT, "none", &["1"], "open"),
];

/// The sheet's rows for A on 10 01, loop 0, and the finding.
const FINDINGS: &[(&[&str], Answer)] = &[
    (&["01", "01", "11", "11", "11"], Answer::Finding("passes", 0, 0)),
    (&["01", "01", "00", "11", "11"], Answer::Finding("failed", 4, 0)),
    (&["01", "00", "11", "11", "11"], Answer::Finding("starved", 3, 0)),
];

/// Checks an implementation on every case; the number of cases.
pub fn check(implementation: Implementation) -> Result<usize, String> {
    let files = [verdicts(), sheets(), limits(), written(), lengths(), padded(), wrong_padding()];
    let others = [runs(), wrong_runs(), circuits(), wrong_circuits()];
    let cases: Vec<Case> = files.into_iter().chain(others).flatten().collect();
    for Case(call, answer, output) in &cases {
        let outcome = implementation(call);
        if outcome.answer != *answer || !outcome.output.starts_with(output.as_bytes()) {
            return Err(format!("wrong: {call}expected {answer:?} and \"{}\"\n{outcome}", output.escape_default()));
        }
    }
    Ok(cases.len())
}

/// Each verdict by the service for both kinds of takes and by the one for its own; the other refuses with 8.
fn verdicts() -> Vec<Case> {
    let case = |&(rows, start, cycles, verdict): &(&[&str], &str, &[&str], &'static str)| {
        let (rule, take) = (rule(cycles[0].len(), rows), take(start, cycles));
        let of = |service: Service| service.of(&[&rule, &take]);
        let verdict = Answer::Verdict(verdict.to_string());
        let (own, other) = match start {
            "none" => (Service::JudgeOpen, Service::JudgeLooped),
            _ => (Service::JudgeLooped, Service::JudgeOpen),
        };
        [
            Case(of(Service::Judge), verdict.clone(), ""),
            Case(of(own), verdict, ""),
            Case(of(other), Answer::Refused(8, 0, 0), ""),
        ]
    };
    VERDICTS.iter().flat_map(case).collect()
}

fn sheets() -> Vec<Case> {
    let (rule, take) = (rule(2, A), take("0", &["10", "01"]));
    let call = |rows: &[&str]| Service::CheckSheet.of(&[&rule, &take, &sheet(rows)]);
    FINDINGS.iter().map(|(rows, finding)| Case(call(rows), finding.clone(), "")).collect()
}

fn limits() -> Vec<Case> {
    let rows = |count| Service::ReadRule.of(&[&rule(1, &vec!["true"; count])]);
    let fifth = |row| Service::ReadRule.of(&[&rule(1, &["true", "true", "true", "true", row])]);
    let cycles = |count| Service::ReadTake.of(&[&take("none", &vec!["0"; count])]);
    vec![
        Case(rows(64), Answer::Accepted, ""),
        Case(rows(65), Answer::Refused(4, 1, 3), ""),
        Case(cycles(256), Answer::Accepted, ""),
        Case(cycles(257), Answer::Refused(4, 2, 3), ""),
        Case(fifth("not 4"), Answer::Accepted, ""),
        Case(fifth("not 5"), Answer::Refused(5, 1, 8), ""),
    ]
}

fn written() -> Vec<Case> {
    let (rule, take) = (rule(2, A), take("0", &["10", "01"]));
    let pair = |service: Service| service.writing(&[&rule, &take], vec![0; 300]);
    vec![
        Case(Service::Bound.of(&[&rule]), Answer::Number(293), ""),
        Case(Service::Normal.writing(&[&rule], vec![0; 300]), Answer::Number(NORMAL_A.len()), NORMAL_A),
        Case(pair(Service::MakeSheet), Answer::Number(SHEET_A.len()), SHEET_A),
        Case(pair(Service::JudgeText), Answer::Number(TEXT_A.len()), TEXT_A),
    ]
}

/// What is to be written, said beforehand; so much does, and a byte less is refused.
fn lengths() -> Vec<Case> {
    let (rule, take, breaking) = (rule(2, A), take("0", &["10", "01"]), take("1", &["10", "10"]));
    let lent = |service: Service, bytes| service.writing(&[&rule[..], &take][..service.files()], vec![0; bytes]);
    vec![
        Case(Service::NormalLength.of(&[&rule]), Answer::Number(77), ""),
        Case(Call { negated: true, ..Service::NormalLength.of(&[&rule]) }, Answer::Number(78), ""),
        Case(lent(Service::Normal, 77), Answer::Number(77), NORMAL_A),
        Case(lent(Service::Normal, 76), Answer::Refused(10, 0, 0), ""),
        Case(Service::SheetLength.of(&[&rule, &take]), Answer::Number(55), ""),
        Case(lent(Service::MakeSheet, 55), Answer::Number(55), SHEET_A),
        Case(lent(Service::MakeSheet, 54), Answer::Refused(10, 0, 0), ""),
        Case(Service::SheetLength.of(&[&rule, &breaking]), Answer::Number(0), ""),
        Case(Service::MakeSheet.of(&[&rule, &breaking]), Answer::None, ""),
    ]
}

/// Padded files are answered as others are, and what is written of them is not padded.
fn padded() -> Vec<Case> {
    let [rule, take, sheet] = [PADDED_A, PADDED_TAKE, PADDED_SHEET].map(str::as_bytes);
    let pair = |service: Service| service.writing(&[rule, take], vec![0; 300]);
    let step = Service::Step.writing(&[rule, b"00000", b"00111", b"10"], vec![0; 15]);
    vec![
        Case(Service::Bound.of(&[rule]), Answer::Number(293), ""),
        Case(Service::NormalLength.of(&[rule]), Answer::Number(NORMAL_A.len()), ""),
        Case(Service::Normal.writing(&[rule], vec![0; 300]), Answer::Number(NORMAL_A.len()), NORMAL_A),
        Case(pair(Service::JudgeLooped), Answer::Verdict("holds".to_string()), ""),
        Case(pair(Service::JudgeText), Answer::Number(TEXT_A.len()), TEXT_A),
        Case(pair(Service::SheetLength), Answer::Number(SHEET_A.len()), ""),
        Case(pair(Service::MakeSheet), Answer::Number(SHEET_A.len()), SHEET_A),
        Case(Service::CheckSheet.of(&[rule, take, sheet]), Answer::Finding("passes", 0, 0), ""),
        Case(step, Answer::Number(15), "000001101100101"),
        Case(Service::RunBegin.writing(&[rule], vec![0; RUN]), Answer::Number(RUN), ""),
    ]
}

/// Padded numbers that are out of range, numbers of six digits, and zeros where there is no padding.
fn wrong_padding() -> Vec<Case> {
    let case = |&(file, old, new, number, line): &(u8, &str, &str, u8, u32)| {
        let (service, padded) = match file {
            1 => (Service::ReadRule, PADDED_A),
            2 => (Service::ReadTake, PADDED_TAKE),
            _ => (Service::ReadSheet, PADDED_SHEET),
        };
        assert!(padded.contains(old), "{old}");
        Case(service.of(&[padded.replacen(old, new, 1).as_bytes()]), Answer::Refused(number, file, line), "")
    };
    WRONG_PADDING.iter().map(case).collect()
}

/// Runs as they go: open, then broken; kept; and what is refused on the way.
fn runs() -> Vec<Case> {
    let begin = |rule: &[u8], room| Service::RunBegin.writing(&[rule], vec![0; room]);
    let cycle = |run: &[u8], digits: &str| Service::RunCycle.writing(&[digits.as_bytes()], run.to_vec());
    let verdict = |rows, cycles: &[&str]| Service::RunVerdict.of(&[&after_cycles(&rule(2, rows), cycles)]);
    let said = |word: &str| Answer::Verdict(word.to_string());
    let refused = |number| Answer::Refused(number, 0, 0);
    let (a, full) = (after_cycles(&rule(2, A), &[]), after_cycles(&rule(2, A), &["00"; 256]));
    vec![
        Case(begin(&rule(2, A), RUN), Answer::Number(RUN), ""),
        Case(begin(&rule(2, A), RUN - 1), refused(10), ""),
        Case(begin(&rule(1, &["true"; 65]), 0), Answer::Refused(4, 1, 3), ""),
        Case(verdict(A_NEXT, &[]), refused(4), ""),
        Case(verdict(A_NEXT, &["10"]), said("open"), ""),
        Case(verdict(A_NEXT, &["10", "00"]), said("broken"), ""),
        Case(verdict(UNTIL, &["10", "01"]), said("kept"), ""),
        Case(cycle(&a, "10"), Answer::Accepted, ""),
        Case(cycle(&a, "1-0"), refused(2), ""),
        Case(cycle(&a, "100"), refused(7), ""),
        Case(cycle(&after_cycles(&rule(2, A), &["00"; 255]), "00"), Answer::Accepted, ""),
        Case(cycle(&full, "0-"), refused(2), ""),
        Case(cycle(&full, "0"), refused(7), ""),
        Case(cycle(&full, "00"), refused(11), ""),
        Case(Service::RunVerdict.of(&[&full]), said("open"), ""),
    ]
}

/// Bytes that no calls lead to, which comes before every other refusal.
fn wrong_runs() -> Vec<Case> {
    let run = after_cycles(&rule(2, A), &["10"]);
    let with = |place: usize, byte: u8| {
        let mut run = run.clone();
        run[place] = byte;
        run
    };
    let behind_the_cycle = with(0, 2);
    let third_signal = with(16, 1);
    let row_on_itself = with(1028, 2);
    let row_behind_the_last = with(1042, 1);
    let all = [
        behind_the_cycle,
        third_signal,
        row_on_itself,
        row_behind_the_last,
        vec![0; RUN],
        vec![],
        [&run[..], &[0]].concat(),
    ];
    let cases = |run: &Vec<u8>| {
        [Service::RunVerdict.of(&[run]), Service::RunCycle.writing(&[b"-"], run.clone())]
            .map(|call| Case(call, Answer::Refused(4, 0, 0), ""))
    };
    all.iter().flat_map(cases).collect()
}

/// The report's or-gate and toggle flip-flop, gates in falling order, and rule A's circuit with two cycles of it.
fn circuits() -> Vec<Case> {
    let rule = rule(2, A);
    let cycle = |circuit: &str, inputs: &str, latches: &str| {
        Service::Simulate.writing(&[circuit.as_bytes(), inputs.as_bytes(), latches.as_bytes()], vec![b'#'; 21])
    };
    let circuit = |room| Service::Circuit.writing(&[&rule], vec![b'#'; room]);
    let falling = "aag 4 2 0 1 2\n2\n4\n8\n8 6 3\n6 5 1\n";
    vec![
        Case(cycle(OR, "00", ""), Answer::Number(1), "0#"),
        Case(cycle(OR, "10", ""), Answer::Number(1), "1#"),
        Case(cycle(TOGGLE, "", "0"), Answer::Number(3), "011#"),
        Case(cycle(TOGGLE, "", "1"), Answer::Number(3), "100#"),
        Case(cycle(falling, "00", ""), Answer::Number(1), "1#"),
        Case(cycle(falling, "01", ""), Answer::Number(1), "0#"),
        Case(circuit(300), Answer::Number(CIRCUIT_A.len()), CIRCUIT_A),
        Case(circuit(CIRCUIT_A.len()), Answer::Number(CIRCUIT_A.len()), CIRCUIT_A),
        Case(circuit(CIRCUIT_A.len() - 1), Answer::Refused(10, 0, 0), "#"),
        Case(Service::Circuit.of(&[b"format=2\n"]), Answer::Refused(3, 1, 1), ""),
        Case(cycle(CIRCUIT_A, "1000111", "00000"), Answer::Number(20), "00000110110010100101#"),
        Case(cycle(CIRCUIT_A, "0111111", "00101"), Answer::Number(20), "00000111110000100001#"),
    ]
}

/// The refusals of a simulation, each with all that come behind it.
fn wrong_circuits() -> Vec<Case> {
    let call = |circuit: &str, inputs: &str, latches: &str, room| {
        Service::Simulate.writing(&[circuit.as_bytes(), inputs.as_bytes(), latches.as_bytes()], vec![b'#'; room])
    };
    let refused = |number, file, line| Answer::Refused(number, file, line);
    vec![
        Case(call(&"1".repeat(65_537), "-", "", 0), refused(1, 1, 0), ""),
        Case(call("aag 4 2 0 1 1\n2\n", "-", "", 0), refused(2, 1, 1), ""),
        Case(call("aag 2 2 0 0 0\n2\n2\n", "-", "", 0), refused(2, 1, 3), ""),
        Case(call("aag 2 2 0 0 0\n2\n", "-", "", 0), refused(2, 1, 3), ""),
        Case(call(&format!("{OR}\n"), "-", "", 0), refused(2, 1, 6), ""),
        Case(call(OR.trim_end(), "-", "", 0), refused(2, 1, 5), ""),
        Case(call(TOGGLE, "0", "0-", 0), refused(2, 0, 0), ""),
        Case(call(TOGGLE, "-", "00", 0), refused(2, 0, 0), ""),
        Case(call(TOGGLE, "0", "00", 0), refused(7, 0, 0), ""),
        Case(call(TOGGLE, "", "00", 0), refused(9, 0, 0), ""),
        Case(call(TOGGLE, "", "0", 2), refused(10, 0, 0), "##"),
    ]
}

#[cfg(test)]
mod tests {
    use super::*;
    use crate::implementations::{by_proved, by_second};

    #[test]
    fn both_give_the_papers_answers() {
        assert_eq!(check(by_proved), check(by_second));
        assert!(check(by_second).is_ok());
    }

    #[test]
    fn a_wrong_answer_is_told() {
        let message = check(|call| by_second(&Call { service: Service::JudgeOpen, ..call.clone() })).unwrap_err();
        assert!(message.starts_with("wrong: Judge"));
    }
}
