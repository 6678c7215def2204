//! What the program `try_services` has to print, by this implementation. Its arguments are the same: each is a case, the name of a
//! service and its inputs, parted by spaces; files are read from the working folder.

#![forbid(unsafe_code)]

use second::{
    bound, check_sheet, circuit, judge_text, make_sheet, normal, normal_length, read_circuit, read_rule, read_sheet,
    read_take, run_begin, run_cycle, run_rule, run_verdict, sheet_length, simulate, step, written_out, Finding,
    Refusal,
};

/// The longest text that a service writes: a sheet of 128 rows and 256 cycles.
const MOST_TEXT: usize = 33_567;
/// The most digits of a sheet where all sheets are tried.
const MOST_DIGITS: usize = 12;
/// Where the bytes of a run have its rows, its counts of signals and rows, its count of cycles, and their end.
const RUN_ROWS: usize = 1024;
const RUN_SIGNALS: usize = 1216;
const RUN_CYCLES: usize = 1218;
const RUN_END: usize = 1220;

fn main() {
    for case in std::env::args().skip(1) {
        let words: Vec<&str> = case.split(' ').collect();
        print!("{case}\n{}", answer(&words).unwrap_or_else(|refusal| refusal.to_string()));
    }
}

/// What is printed of an answer; a refusal where it is nothing else.
fn answer(words: &[&str]) -> Result<String, Refusal> {
    let ok = |(): ()| "ok\n".to_string();
    let length = |bytes: usize| format!("length={bytes}\n");
    let or_none = |text: Option<String>| text.unwrap_or("none\n".into());
    match *words {
        ["read_rule", rule] => read_rule(&load(rule)).map(ok),
        ["read_take", take] => read_take(&load(take)).map(ok),
        ["read_sheet", sheet] => read_sheet(&load(sheet)).map(ok),
        ["read_circuit", circuit] => read_circuit(&load(circuit)).map(ok),
        ["bound", rule] => bound(&load(rule)).map(|bytes| format!("bound={bytes}\n")),
        ["normal_length", rule] => normal_length(&load(rule), false).map(length),
        ["negated_length", rule] => normal_length(&load(rule), true).map(length),
        ["normal", rule, size] => of_rule(rule, size, |rule, output| normal(rule, false, output)),
        ["negated", rule, size] => of_rule(rule, size, |rule, output| normal(rule, true, output)),
        ["step", rule, pendings, activators, signals, size] => of_rule(rule, size, |rule, output| {
            step(rule, pendings.as_bytes(), activators.as_bytes(), signals.as_bytes(), output)
        }),
        ["circuit", rule, size] => of_rule(rule, size, circuit),
        ["simulate", circuit, inputs, latches, size] => {
            Ok(lent(size, |output| simulate(&load(circuit), inputs.as_bytes(), latches.as_bytes(), output)))
        }
        ["judge", rule, take] => Ok(judged(rule, take)),
        ["sheet_length", rule, take] => sheet_length(&load(rule), &load(take)).map(length),
        ["sheet", rule, take] => written(|output| make_sheet(&load(rule), &load(take), output)).map(or_none),
        ["check_sheet", rule, take, sheet] => {
            check_sheet(&load(rule), &load(take), &load(sheet)).map(|finding| finding.to_string())
        }
        ["written_out", take, rounds] => {
            let rounds = rounds.parse().expect("a number of rounds");
            written(|output| written_out(&load(take), rounds, output)).map(or_none)
        }
        ["all_sheets", rule, take] => Ok(all_sheets(rule, take)),
        ["run", rule, ref calls @ ..] => run(rule, calls),
        _ => Ok("no such service\n".to_string()),
    }
}

/// A file's bytes; none where it cannot be read.
fn load(name: &str) -> Vec<u8> {
    std::fs::read(name).unwrap_or_default()
}

/// The answer of a service with so many bytes lent, and all of these as the call left them.
fn lent(size: &str, service: impl FnOnce(&mut [u8]) -> Result<usize, Refusal>) -> String {
    let mut output = vec![b'.'; size.parse().expect("a size")];
    let said = service(&mut output).map_or_else(|refusal| refusal.to_string(), |length| format!("written={length}\n"));
    format!("{said}{}\n", String::from_utf8_lossy(&output))
}

/// The same of a service with a rule. A rule that is refused has no table to call the service with.
fn of_rule(
    rule: &str,
    size: &str,
    service: impl FnOnce(&[u8], &mut [u8]) -> Result<usize, Refusal>,
) -> Result<String, Refusal> {
    let rule = load(rule);
    read_rule(&rule)?;
    Ok(lent(size, |output| service(&rule, output)))
}

/// The text that a service writes, if it writes one.
fn written(service: impl FnOnce(&mut [u8]) -> Result<Option<usize>, Refusal>) -> Result<Option<String>, Refusal> {
    let mut output = vec![0; MOST_TEXT];
    let length = service(&mut output)?;
    Ok(length.map(|length| String::from_utf8_lossy(&output[..length]).into_owned()))
}

fn judged(rule: &str, take: &str) -> String {
    let text = written(|output| judge_text(&load(rule), &load(take), output).map(Some));
    text.map_or_else(|refusal| refusal.to_string(), Option::unwrap_or_default)
}

/// The verdict, and how many of all sheets pass.
fn all_sheets(rule: &str, take: &str) -> String {
    let text = judged(rule, take);
    let value = |key: &str| text.lines().find_map(|line| line.strip_prefix(key)?.strip_prefix('=')).expect("a verdict");
    let [rows, cycles] = ["rows", "cycles"].map(|key| value(key).parse::<usize>().expect("a count"));
    assert!(rows * cycles <= MOST_DIGITS);
    let (rule, take) = (load(rule), load(take));
    let passes =
        |number: &usize| check_sheet(&rule, &take, sheet(rows, cycles, *number).as_bytes()) == Ok(Finding::Passes);
    let passing = (0..1 << (rows * cycles)).filter(passes).count();
    format!("verdict={}\npassing={passing}\n", value("verdict"))
}

/// The sheet file whose digits are those of a number.
fn sheet(rows: usize, cycles: usize, number: usize) -> String {
    let digits = format!("{number:0width$b}", width = rows * cycles);
    let line = |row: usize| format!("z{}={}\n", row + 1, &digits[row * cycles..][..cycles]);
    let lines: String = (0..rows).map(line).collect();
    format!("format=1\nrows={rows}\ncycles={cycles}\n{lines}")
}

/// What a run that begins with a rule answers to one call after another.
fn run(rule: &str, calls: &[&str]) -> Result<String, Refusal> {
    let mut run = [0; RUN_END];
    run_begin(&load(rule), &mut run)?;
    let said: String = calls.iter().map(|call| called(&mut run, call)).collect();
    Ok(format!("ok\n{said}"))
}

/// What is said to a word: a change, `begin`, `?` or the digits of a cycle. Of a call that must leave the run alone, whether it did.
fn called(run: &mut [u8; RUN_END], word: &str) -> String {
    let before = *run;
    if let Some((field, number)) = word.split_once('=') {
        change(run, field, number.parse().expect("a number"));
        return String::new();
    }
    let said = match word {
        "begin" => return begun(run).map_or_else(|refusal| refusal.to_string(), |()| "ok\n".to_string()),
        "?" => run_verdict(run).map(|verdict| format!("verdict={verdict}\n")),
        digits => match run_cycle(run, digits.as_bytes()) {
            Ok(()) => return "ok\n".to_string(),
            Err(refusal) => Err(refusal),
        },
    };
    let left = if *run == before { "same" } else { "other" };
    format!("{}run={left}\n", said.unwrap_or_else(|refusal| refusal.to_string()))
}

/// A run begins with the rule that another holds. If that is refused it is held all the same, with no cycle.
fn begun(run: &mut [u8; RUN_END]) -> Result<(), Refusal> {
    let rule = run_rule(run).expect("a change knows no other rows");
    run[..RUN_ROWS].fill(0);
    run[RUN_CYCLES..].fill(0);
    run_begin(rule.as_bytes(), run).map(|_| ())
}

/// Sets a count, a bit of the digits, or a row to `false`.
fn change(run: &mut [u8; RUN_END], field: &str, number: u16) {
    let at = usize::from(number);
    match field {
        "signals" => run[RUN_SIGNALS] = number as u8,
        "rows" => run[RUN_SIGNALS + 1] = number as u8,
        "cycles" => run[RUN_CYCLES..].copy_from_slice(&number.to_le_bytes()),
        "bit" => run[at / 8] |= 1 << (at % 8),
        "place" => run[RUN_ROWS + 3 * at..][..3].copy_from_slice(&[1, 0, 0]),
        _ => panic!("no such change: {field}"),
    }
}
