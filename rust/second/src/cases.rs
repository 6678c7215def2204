//! The papers' cases, and the order of refusals.

use crate::{
    bound, check_sheet, judge, judge_looped, judge_open, judge_text, make_sheet, normal, normal_length, read_rule,
    read_sheet, read_take, rows, sheet_length, step, Finding, Refusal, Verdict,
};

/// Always, when signal 1, sooner or later signal 2.
pub const A: [&str; 6] = ["sig 1", "not 1", "sig 2", "ever 3", "or 2 4", "always 5"];

/// Always, not signal 1 or next signal 2.
const NEXT: [&str; 6] = ["sig 1", "not 1", "sig 2", "next 3", "or 2 4", "always 5"];

pub const NORMAL_A: &str = "format=1\nsignals=2\nrows=5\nr1=nsig 1\nr2=sig 2\nr3=ever 2\nr4=or 1 3\nr5=always 4\n";

pub fn rule(signals: usize, rows: &[&str]) -> String {
    let lines: String = (1..).zip(rows).map(|(own, row)| format!("r{own}={row}\n")).collect();
    format!("format=1\nsignals={signals}\nrows={}\n{lines}", rows.len())
}

pub fn take(start: &str, cycles: &[&str]) -> String {
    let lines: String = (0..).zip(cycles).map(|(cycle, digits)| format!("c{cycle}={digits}\n")).collect();
    format!("format=1\nsignals={}\ncycles={}\nloop={start}\n{lines}", cycles[0].len(), cycles.len())
}

pub fn sheet(rows: &[&str]) -> String {
    let lines: String = (1..).zip(rows).map(|(row, digits)| format!("z{row}={digits}\n")).collect();
    format!("format=1\nrows={}\ncycles={}\n{lines}", rows.len(), rows[0].len())
}

pub fn refused<T>(number: u8, file: u8, line: u32) -> Result<T, Refusal> {
    Err(Refusal { number, file, line })
}

/// Checks a verdict by the service for either kind and by the one for its own; the other refuses with 8.
fn judged(rule: &str, take: &str, verdict: Verdict) {
    let (rule, take) = (rule.as_bytes(), take.as_bytes());
    let of_looped = matches!(verdict, Verdict::Holds | Verdict::Breaks);
    assert_eq!(judge(rule, take), Ok(verdict));
    assert_eq!(judge_looped(rule, take), if of_looped { Ok(verdict) } else { refused(8, 0, 0) });
    assert_eq!(judge_open(rule, take), if of_looped { refused(8, 0, 0) } else { Ok(verdict) });
}

#[test]
fn rule_a_is_judged() {
    judged(&rule(2, &A), &take("0", &["10", "01"]), Verdict::Holds);
    judged(&rule(2, &A), &take("1", &["10", "10"]), Verdict::Breaks);
    judged(&rule(2, &A), &take("none", &["10"]), Verdict::Open);
}

#[test]
fn always_not_or_next_is_judged() {
    judged(&rule(2, &NEXT), &take("none", &["10", "00"]), Verdict::Broken);
    judged(&rule(2, &NEXT), &take("none", &["10"]), Verdict::Open);
}

#[test]
fn until_and_weak_are_judged() {
    let until = rule(2, &["sig 1", "sig 2", "until 1 2"]);
    judged(&until, &take("none", &["10", "01"]), Verdict::Kept);
    judged(&until, &take("none", &["10", "00"]), Verdict::Broken);
    judged(&until, &take("none", &["10", "10"]), Verdict::Open);
    judged(&until, &take("0", &["10"]), Verdict::Breaks);
    judged(&rule(2, &["sig 1", "sig 2", "weak 1 2"]), &take("0", &["10"]), Verdict::Holds);
}

#[test]
fn always_true_and_next_are_judged() {
    judged(&rule(1, &["true", "always 1"]), &take("none", &["0"]), Verdict::Open);
    judged(&rule(1, &["sig 1", "next 1"]), &take("0", &["1"]), Verdict::Holds);
    judged(&rule(1, &["sig 1", "next 1"]), &take("none", &["1"]), Verdict::Open);
}

#[test]
fn normal_form_of_rule_a_is_written() {
    let mut output = [b'#'; 300];
    assert_eq!(normal(rule(2, &A).as_bytes(), false, &mut output), Ok(NORMAL_A.len()));
    assert_eq!(&output[..NORMAL_A.len()], NORMAL_A.as_bytes());
    assert!(output[NORMAL_A.len()..].iter().all(|byte| *byte == b'#'));
    assert_eq!(bound(rule(2, &A).as_bytes()), Ok(293));
    assert_eq!(rows(rule(2, &A).as_bytes()), Ok(5));
}

/// What is to be written, said beforehand; so much does, and a byte less is refused.
#[test]
fn lengths_of_rule_a() {
    let rule = rule(2, &A);
    for (negated, length) in [(false, 77), (true, 78)] {
        assert_eq!(normal_length(rule.as_bytes(), negated), Ok(length));
        assert_eq!(normal(rule.as_bytes(), negated, &mut vec![0; length]), Ok(length));
        assert_eq!(normal(rule.as_bytes(), negated, &mut vec![0; length - 1]), refused(10, 0, 0));
    }
    let [fair, breaking, open] = [("0", ["10", "01"]), ("1", ["10", "10"]), ("none", ["10", "01"])]
        .map(|(start, cycles)| take(start, &cycles).into_bytes());
    assert_eq!(sheet_length(rule.as_bytes(), &fair), Ok(55));
    assert_eq!(make_sheet(rule.as_bytes(), &fair, &mut [0; 55]), Ok(Some(55)));
    assert_eq!(make_sheet(rule.as_bytes(), &fair, &mut [0; 54]), refused(10, 0, 0));
    assert_eq!(sheet_length(rule.as_bytes(), &breaking), Ok(0));
    assert_eq!(sheet_length(rule.as_bytes(), &open), Ok(0));
}

#[test]
fn negation_takes_partners() {
    let rows = ["sig 1", "nsig 1", "until 1 2", "weak 1 3", "not 4", "srelease 3 5", "next 6"];
    let expected = ["sig 1", "nsig 1", "nsig 1", "sig 1", "until 1 3", "release 2 4", "weak 1 5", "weak 6 7", "next 8"];
    let expected = rule(1, &expected);
    let mut output = vec![0; expected.len()];
    assert_eq!(normal(rule(1, &rows).as_bytes(), true, &mut output), Ok(expected.len()));
    assert_eq!(String::from_utf8(output).unwrap(), expected);
}

#[test]
fn sheets_of_rule_a() {
    let (rule, take) = (rule(2, &A), take("0", &["10", "01"]));
    let found = |rows: &[&str]| check_sheet(rule.as_bytes(), take.as_bytes(), sheet(rows).as_bytes());
    let made = sheet(&["01", "01", "11", "11", "11"]);
    let mut output = vec![0; made.len()];
    assert_eq!(make_sheet(rule.as_bytes(), take.as_bytes(), &mut output), Ok(Some(made.len())));
    assert_eq!(output, made.as_bytes());
    assert_eq!(found(&["01", "01", "11", "11", "11"]), Ok(Finding::Passes));
    assert_eq!(found(&["01", "01", "00", "11", "11"]), Ok(Finding::Failed { row: 4, cycle: 0 }));
    assert_eq!(found(&["01", "00", "11", "11", "11"]), Ok(Finding::Starved { row: 3 }));
    assert_eq!(found(&["01", "01", "11", "11", "01"]), Ok(Finding::Root));
    assert_eq!(found(&["01", "01", "11", "11"]), refused(9, 0, 0));
}

#[test]
fn sheets_of_open_takes() {
    let until = rule(2, &["sig 1", "sig 2", "until 1 2"]);
    let found = |cycles: &[&str], rows: &[&str]| {
        check_sheet(until.as_bytes(), take("none", cycles).as_bytes(), sheet(rows).as_bytes())
    };
    assert_eq!(found(&["10", "01"], &["10", "01", "10"]), Ok(Finding::Passes));
    assert_eq!(found(&["10", "10"], &["11", "00", "10"]), Ok(Finding::Pending { row: 3 }));
    assert_eq!(make_sheet(until.as_bytes(), take("none", &["10"]).as_bytes(), &mut []), Ok(None));
}

/// A failure that only the second round shows: the stem's activator is gone, the loop's last cycle asks the loop's first.
#[test]
fn failure_in_the_second_round() {
    let (rule, take) = (rule(1, &["sig 1", "next 1", "or 1 2"]), take("1", &["1", "0", "0"]));
    let found = check_sheet(rule.as_bytes(), take.as_bytes(), sheet(&["100", "001", "100"]).as_bytes());
    assert_eq!(found, Ok(Finding::Failed { row: 2, cycle: 3 }));
}

#[test]
fn limits() {
    let rows = |count| rule(1, &vec!["true"; count]);
    let cycles = |count| take("none", &vec!["0"; count]);
    assert_eq!(read_rule(rows(64).as_bytes()), Ok(()));
    assert_eq!(read_rule(rows(65).as_bytes()), refused(4, 1, 3));
    assert_eq!(read_take(cycles(256).as_bytes()), Ok(()));
    assert_eq!(read_take(cycles(257).as_bytes()), refused(4, 2, 3));
    let fifth = |row| rule(1, &["true", "true", "true", "true", row]);
    assert_eq!(read_rule(fifth("not 4").as_bytes()), Ok(()));
    assert_eq!(read_rule(fifth("not 5").as_bytes()), refused(5, 1, 8));
}

#[test]
fn lines_at_fault() {
    let whole = rule(2, &A);
    let changed = |old: &str, new: &str| read_rule(whole.replacen(old, new, 1).as_bytes());
    assert_eq!(read_rule(b""), refused(2, 1, 1));
    assert_eq!(read_rule(&[b'x'; 65_537]), refused(1, 1, 0));
    assert_eq!(read_rule(&[b'x'; 65_536]), refused(2, 1, 1));
    assert_eq!(changed("format=1", "format=2"), refused(3, 1, 1));
    assert_eq!(changed("signals=2", "signals=33"), refused(4, 1, 2));
    assert_eq!(changed("r3=sig 2", "r3=sig 3"), refused(5, 1, 6));
    assert_eq!(changed("r3=sig 2", "r3=sig  2"), refused(2, 1, 6));
    assert_eq!(changed("r3=sig 2\n", "r3=sig 2\r\n"), refused(2, 1, 6));
    assert_eq!(changed("always 5\n", "always 5"), refused(2, 1, 9));
    assert_eq!(changed("always 5\n", "always 5\n\n"), refused(2, 1, 10));
    assert_eq!(changed("r6=always 5\n", ""), refused(2, 1, 9));
    assert_eq!(read_take(take("1", &["0"]).as_bytes()), refused(6, 2, 4));
    assert_eq!(read_take(take("0", &["0", "00"]).as_bytes()), refused(2, 2, 6));
    assert_eq!(read_sheet(b"format=1\nrows=129\n"), refused(4, 3, 2));
}

/// The rule is read before the take and the take before the sheet; then come 7 to 10.
#[test]
fn order_of_refusals() {
    let (good, other) = (rule(2, &A), take("none", &["1"]));
    let long = [b'x'; 65_537];
    assert_eq!(judge(b"", &long), refused(2, 1, 1));
    assert_eq!(judge(good.as_bytes(), &long), refused(1, 2, 0));
    assert_eq!(check_sheet(good.as_bytes(), other.as_bytes(), b""), refused(2, 3, 1));
    assert_eq!(check_sheet(good.as_bytes(), other.as_bytes(), sheet(&["1"]).as_bytes()), refused(7, 0, 0));
    assert_eq!(judge_looped(good.as_bytes(), other.as_bytes()), refused(7, 0, 0));
    assert_eq!(normal(b"", false, &mut []), refused(2, 1, 1));
    assert_eq!(normal(good.as_bytes(), false, &mut []), refused(10, 0, 0));
    assert_eq!(make_sheet(good.as_bytes(), other.as_bytes(), &mut []), refused(7, 0, 0));
    assert_eq!(normal_length(b"", true), refused(2, 1, 1));
    assert_eq!(sheet_length(b"", &long), refused(2, 1, 1));
    assert_eq!(sheet_length(good.as_bytes(), &long), refused(1, 2, 0));
    assert_eq!(sheet_length(good.as_bytes(), other.as_bytes()), refused(7, 0, 0));
}

#[test]
fn steps_of_rule_a() {
    let rule = rule(2, &A);
    let mut output = [b'#'; 16];
    assert_eq!(step(rule.as_bytes(), b"00000", b"00111", b"10", &mut output), Ok(15));
    assert_eq!(&output, b"000001101100101#");
    assert_eq!(step(rule.as_bytes(), b"00101", b"11111", b"01", &mut output), Ok(15));
    assert_eq!(&output, b"000001111100001#");
}

#[test]
fn order_of_step_refusals() {
    let rule = rule(2, &A);
    let call = |pendings: &[u8], activators: &[u8], signals: &[u8]| {
        step(rule.as_bytes(), pendings, activators, signals, &mut [0; 14])
    };
    assert_eq!(call(b"", b"x", b"000"), refused(2, 0, 0));
    assert_eq!(call(b"", b"1", b"000"), refused(7, 0, 0));
    assert_eq!(call(b"00000", b"0000", b"00"), refused(9, 0, 0));
    assert_eq!(call(b"0000", b"00000", b"00"), refused(9, 0, 0));
    assert_eq!(call(b"00000", b"00000", b"00"), refused(10, 0, 0));
    assert_eq!(step(b"", b"x", b"", b"", &mut []), refused(2, 1, 1));
}

#[test]
fn text_of_judge() {
    let expected = |text: &str, rule: &str, take: &str| {
        let mut output = [0; 64];
        let length = judge_text(rule.as_bytes(), take.as_bytes(), &mut output).unwrap();
        assert_eq!(std::str::from_utf8(&output[..length]).unwrap(), text);
        assert_eq!(judge_text(rule.as_bytes(), take.as_bytes(), &mut output[..length - 1]), refused(10, 0, 0));
    };
    let (rule, take) = (rule(2, &A), take("0", &["10", "01"]));
    expected("signals=2\nrows=5\ncycles=2\nloop=0\nverdict=holds\n", &rule, &take);
    expected("refused=2\nfile=2\nline=1\n", &rule, "");
}
