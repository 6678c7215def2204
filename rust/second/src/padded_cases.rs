//! Numbers with leading zeros: in values they are read, in keys they are not.

use crate::cases::{refused, rule, sheet, take, A, NORMAL_A};
use crate::{
    check_sheet, judge, judge_looped, judge_text, make_sheet, normal, normal_length, read_rule, read_sheet, read_take,
    run_begin, run_cycle, run_verdict, sheet_length, step, Finding, Refusal, Verdict,
};

type Reader = fn(&[u8]) -> Result<(), Refusal>;

/// A number in a file's values: what stands before it in its line, and what behind it.
type Place = (&'static str, usize, &'static str);

/// Rule A, a looped take and their sheet, as the bench pads them.
const PADDED_RULE: &str = "format=00001\nsignals=00002\nrows=00006\n\
    r1=sig 00001\nr2=not 00001\nr3=sig 00002\nr4=ever 00003\nr5=or 00002 00004\nr6=always 00005\n";
const PADDED_TAKE: &str = "format=00001\nsignals=00002\ncycles=00002\nloop=00000\nc0=10\nc1=01\n";
const PADDED_SHEET: &str = "format=00001\nrows=00005\ncycles=00002\nz1=01\nz2=01\nz3=11\nz4=11\nz5=11\n";

fn plain_rule() -> String {
    rule(2, &A)
}

fn plain_take() -> String {
    take("0", &["10", "01"])
}

fn plain_sheet() -> String {
    sheet(&["01", "01", "11", "11", "11"])
}

/// The places of numbers in the values of each kind of file, one of each form.
fn places() -> Vec<(Reader, String, Vec<Place>)> {
    let in_rule = vec![
        ("format=", 1, "\n"),
        ("signals=", 2, "\n"),
        ("rows=", 6, "\n"),
        ("r1=sig ", 1, "\n"),
        ("r2=not ", 1, "\n"),
        ("r4=ever ", 3, "\n"),
        ("r5=or ", 2, " 4\n"),
        ("r5=or 2 ", 4, "\n"),
        ("r6=always ", 5, "\n"),
    ];
    let in_take = vec![("format=", 1, "\n"), ("signals=", 2, "\n"), ("cycles=", 2, "\n"), ("loop=", 0, "\n")];
    let in_sheet = vec![("format=", 1, "\n"), ("rows=", 5, "\n"), ("cycles=", 2, "\n")];
    vec![(read_rule, plain_rule(), in_rule), (read_take, plain_take(), in_take), (read_sheet, plain_sheet(), in_sheet)]
}

/// What a reader says of a file in which one text, which must be there, is another.
fn changed(read: Reader, file: &str, old: &str, new: &str) -> Result<(), Refusal> {
    assert!(file.contains(old), "{old}");
    read(file.replacen(old, new, 1).as_bytes())
}

#[test]
fn numbers_in_values_may_be_padded_up_to_five_digits() {
    for (read, file, places) in places() {
        for (before, number, behind) in places {
            let old = format!("{before}{number}{behind}");
            for width in 1..=5 {
                assert_eq!(changed(read, &file, &old, &format!("{before}{number:0width$}{behind}")), Ok(()));
            }
            let six = changed(read, &file, &old, &format!("{before}{number:06}{behind}"));
            assert_eq!(six.map_err(|refusal| refusal.number), Err(2), "{old}");
        }
    }
}

#[test]
fn the_rows_of_every_word_may_be_padded() {
    let ones = ["sig", "nsig", "not", "next", "always", "ever"].map(|word| format!("{word} 00001"));
    let twos = ["and", "or", "weak", "until", "release", "srelease"]
        .map(|word| [format!("{word} 01 2"), format!("{word} 1 00002")]);
    for row in ones.iter().chain(twos.iter().flatten()) {
        assert_eq!(read_rule(rule(2, &["true", "true", row]).as_bytes()), Ok(()), "{row}");
    }
}

#[test]
fn whole_padded_files_are_read() {
    assert_eq!(read_rule(PADDED_RULE.as_bytes()), Ok(()));
    assert_eq!(read_take(PADDED_TAKE.as_bytes()), Ok(()));
    assert_eq!(read_sheet(PADDED_SHEET.as_bytes()), Ok(()));
    assert_eq!(read_take(b"format=01\nsignals=001\ncycles=00012\nloop=0011\n"), refused(2, 2, 5));
}

#[test]
fn numbers_in_keys_may_not_be_padded() {
    for key in ["r01=", "r001=", "r00001="] {
        assert_eq!(changed(read_rule, &plain_rule(), "r1=", key), refused(2, 1, 4));
    }
    for key in ["c00=", "c000=", "c00000="] {
        assert_eq!(changed(read_take, &plain_take(), "c0=", key), refused(2, 2, 5));
    }
    assert_eq!(changed(read_take, &plain_take(), "c1=", "c01="), refused(2, 2, 6));
    assert_eq!(changed(read_sheet, &plain_sheet(), "z5=", "z05="), refused(2, 3, 8));
    assert_eq!(read_rule(PADDED_RULE.replace("r6=", "r06=").as_bytes()), refused(2, 1, 9));
}

/// The digits of a cycle or a row are no number: zeros in front of them are digits too many.
#[test]
fn digits_are_not_padded() {
    assert_eq!(changed(read_take, &plain_take(), "c1=01", "c1=001"), refused(2, 2, 6));
    assert_eq!(changed(read_take, &plain_take(), "c0=10", "c0=00010"), refused(2, 2, 5));
    assert_eq!(changed(read_sheet, &plain_sheet(), "z1=01", "z1=001"), refused(2, 3, 4));
    assert_eq!(read_take(take("none", &["0000000"]).as_bytes()), Ok(()));
}

#[test]
fn zero_is_one_to_five_digits() {
    for zero in ["0", "00", "000", "0000", "00000"] {
        let count = |read: Reader, file: &str, key: &str, old: usize| {
            changed(read, file, &format!("{key}{old}\n"), &format!("{key}{zero}\n"))
        };
        assert_eq!(count(read_rule, &plain_rule(), "signals=", 2), refused(4, 1, 2));
        assert_eq!(count(read_rule, &plain_rule(), "rows=", 6), refused(4, 1, 3));
        assert_eq!(count(read_take, &plain_take(), "signals=", 2), refused(4, 2, 2));
        assert_eq!(count(read_take, &plain_take(), "cycles=", 2), refused(4, 2, 3));
        assert_eq!(count(read_sheet, &plain_sheet(), "rows=", 5), refused(4, 3, 2));
        assert_eq!(count(read_sheet, &plain_sheet(), "cycles=", 2), refused(4, 3, 3));
        assert_eq!(count(read_take, &plain_take(), "format=", 1), refused(3, 2, 1));
        for row in [format!("sig {zero}"), format!("not {zero}"), format!("and {zero} 1"), format!("and 1 {zero}")] {
            assert_eq!(read_rule(rule(1, &["true", &row]).as_bytes()), refused(5, 1, 5));
        }
    }
}

/// A padded number is held to the same range as it is without the zeros, and to its form before that.
#[test]
fn range_is_checked_behind_the_form() {
    assert_eq!(changed(read_rule, &plain_rule(), "format=1", "format=00002"), refused(3, 1, 1));
    assert_eq!(changed(read_rule, &plain_rule(), "rows=6", "rows=00065"), refused(4, 1, 3));
    assert_eq!(changed(read_rule, &plain_rule(), "rows=6", "rows=000065"), refused(2, 1, 3));
    assert_eq!(changed(read_rule, &plain_rule(), "sig 2", "sig 00003"), refused(5, 1, 6));
    assert_eq!(changed(read_rule, &plain_rule(), "or 2 4", "or 00002 00005"), refused(5, 1, 8));
    assert_eq!(changed(read_rule, &plain_rule(), "or 2 4", "or 00005 000004"), refused(2, 1, 8));
    assert_eq!(changed(read_take, &plain_take(), "loop=0", "loop=00001"), Ok(()));
    assert_eq!(changed(read_take, &plain_take(), "loop=0", "loop=00002"), refused(6, 2, 4));
    assert_eq!(changed(read_take, &plain_take(), "loop=0", "loop=000000"), refused(2, 2, 4));
    assert_eq!(changed(read_sheet, &plain_sheet(), "rows=5", "rows=00129"), refused(4, 3, 2));
}

#[test]
fn padded_zero_is_the_first_cycle() {
    let returns = rule(1, &["sig 1", "ever 1", "always 2"]);
    let judged = |start| {
        let take = take(start, &["1", "0"]);
        assert_eq!(judge(returns.as_bytes(), take.as_bytes()), judge_looped(returns.as_bytes(), take.as_bytes()));
        judge(returns.as_bytes(), take.as_bytes())
    };
    for zero in ["0", "00", "000", "0000", "00000"] {
        assert_eq!(judged(zero), Ok(Verdict::Holds));
    }
    assert_eq!(judged("00001"), Ok(Verdict::Breaks));
}

/// What a service writes of padded files, which must be written without padding.
fn written(service: impl FnOnce(&mut [u8]) -> Result<Option<usize>, Refusal>) -> String {
    let mut output = [0; 300];
    let length = service(&mut output).unwrap().unwrap();
    String::from_utf8(output[..length].to_vec()).unwrap()
}

#[test]
fn what_is_written_is_not_padded() {
    let (rule, take) = (PADDED_RULE.as_bytes(), PADDED_TAKE.as_bytes());
    assert_eq!(written(|output| normal(rule, false, output).map(Some)), NORMAL_A);
    assert_eq!(written(|output| make_sheet(rule, take, output)), plain_sheet());
    let text = written(|output| judge_text(rule, take, output).map(Some));
    assert_eq!(text, "signals=2\nrows=5\ncycles=2\nloop=0\nverdict=holds\n");
}

#[test]
fn padded_files_are_answered_like_others() {
    let (rule, take) = (PADDED_RULE.as_bytes(), PADDED_TAKE.as_bytes());
    assert_eq!(check_sheet(rule, take, PADDED_SHEET.as_bytes()), Ok(Finding::Passes));
    assert_eq!((normal_length(rule, false), sheet_length(rule, take)), (Ok(NORMAL_A.len()), Ok(plain_sheet().len())));
    let mut output = [0; 15];
    assert_eq!(step(rule, b"00000", b"00111", b"10", &mut output), Ok(15));
    assert_eq!(&output, b"000001101100101");
}

/// A run holds a rule by its numbers, so that a padded one leaves no trace in it.
#[test]
fn runs_hold_no_padding() {
    let [mut padded, mut plain] = [[0; 1220]; 2];
    assert_eq!(run_begin(PADDED_RULE.as_bytes(), &mut padded), Ok(1220));
    assert_eq!(run_begin(plain_rule().as_bytes(), &mut plain), Ok(1220));
    assert_eq!(padded, plain);
    assert_eq!(run_cycle(&mut padded, b"10"), Ok(()));
    assert_eq!(run_verdict(&padded), Ok(Verdict::Open));
}
