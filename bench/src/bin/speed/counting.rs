//! Instructions a call, counted by callgrind: the program is run under it with so many calls and with twice as many, and the
//! difference is divided. Callgrind counts each repetition of a block instruction (clearing, copying) as one.
use crate::services::{Call, Implementation, Service};
use std::process::Command;

fn collected(words: &[String]) -> u64 {
    let program = std::env::current_exe().unwrap();
    let run = Command::new("valgrind").args(["--tool=callgrind", "--callgrind-out-file=/dev/null"]).arg(program).args(words).output();
    let said = String::from_utf8(run.expect("valgrind").stderr).unwrap();
    let count = said.lines().find_map(|line| line.split_once("Collected : ")).expect("a count").1;
    count.trim().parse().unwrap()
}

/// The instructions of one call at full size.
pub fn instructions(by: Implementation, call: Call) -> f64 {
    let calls = if by == Implementation::Second { 1 } else { 10 };
    let run = |calls: usize| collected(&words(by, call, calls));
    (run(2 * calls) - run(calls)) as f64 / calls as f64
}

fn words(by: Implementation, call: Call, calls: usize) -> Vec<String> {
    ["calls".to_string(), format!("{by:?}"), format!("{:?}", call.service), call.only_read.to_string(), calls.to_string()].into()
}

/// What `words` says, taken apart again.
pub fn parsed(words: &[String]) -> Option<(Implementation, Call, usize)> {
    let by = Implementation::ALL.into_iter().find(|by| format!("{by:?}") == words[0])?;
    let service = Service::ALL.into_iter().find(|service| format!("{service:?}") == words[1])?;
    Some((by, Call { service, only_read: words[2].parse().ok()? }, words[3].parse().ok()?))
}
