//! How often each service gave each kind of answer, printed when the process ends.

use std::collections::BTreeMap;
use std::sync::Mutex;

static COUNTS: Mutex<BTreeMap<(&str, String), u64>> = Mutex::new(BTreeMap::new());

extern "C" {
    fn atexit(function: extern "C" fn()) -> i32;
}

/// Counts an answer of the library.
pub fn count(service: &'static str, answer: u64) {
    let mut counts = COUNTS.lock().expect("there is one thread");
    *counts.entry((service, kind(service, answer))).or_default() += 1;
}

/// What kind of answer a number is.
fn kind(service: &str, answer: u64) -> String {
    let word = |words: [&str; 5]| words[(answer & 255) as usize - 1].to_string();
    match service {
        _ if answer >> 63 == 1 => format!("refused with {:2}", answer & 255),
        "judge" | "judge_looped" | "judge_open" | "run_verdict" => word(["holds", "breaks", "kept", "broken", "open"]),
        "check_sheet" => word(["root", "failed", "starved", "pending", "passes"]),
        "make_sheet" | "sheet_length" if answer == 0 => "none".to_string(),
        _ => "answered".to_string(),
    }
}

/// Lets the counts be printed when the process ends.
pub fn print_at_exit() {
    extern "C" fn print() {
        for ((service, kind), count) in COUNTS.lock().expect("there is one thread").iter() {
            eprintln!("tally: {service:21} {kind:16} {count:12}");
        }
    }
    unsafe { atexit(print) };
}
