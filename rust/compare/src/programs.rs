//! The programs, run on the files of random calls, beside the second implementation.

use crate::call::{Call, Service};
use crate::trials::random_calls;
use second::{check_sheet, judge_text, make_sheet, normal, Refusal};
use std::collections::BTreeMap;
use std::path::{Path, PathBuf};
use std::process::Command;

/// The names under which the programs read a call's files.
const NAMES: [&str; 3] = ["rule.txt", "take.txt", "sheet.txt"];

/// Runs the programs in a folder on the files of random calls, and holds what they print to the second implementation; how often each
/// was run.
pub fn hold_programs(folder: &Path, seed: u64, runs: u64) -> Result<BTreeMap<&'static str, u64>, String> {
    let scratch = std::env::temp_dir().join(format!("citronhelm-{}", std::process::id()));
    std::fs::create_dir(&scratch).map_err(|fault| format!("{}: {fault}", scratch.display()))?;
    let mut counts = BTreeMap::new();
    let mut last = None;
    let held = random_calls(seed, runs, &mut |call| {
        let Some((program, text)) = due(call) else { return Ok(()) };
        // calls that differ only in what is lent are one run
        let files = Some((program, call.inputs.clone()));
        if last == files {
            return Ok(());
        }
        last = files;
        *counts.entry(program).or_default() += 1;
        let printed =
            printed(&built(folder, program), &scratch, call).map_err(|fault| format!("{program}: {fault}"))?;
        match printed == text {
            true => Ok(()),
            false => Err(format!("different: {program} prints b\"{}\": {call}", printed.escape_ascii())),
        }
    });
    std::fs::remove_dir_all(&scratch).ok();
    held.map(|()| counts)
}

/// Where a program is: in the folder itself, or in the folder `out` of its crate there.
fn built(folder: &Path, program: &str) -> PathBuf {
    let path = folder.join(program);
    if path.is_dir() {
        path.join("out").join(program)
    } else {
        path
    }
}

/// The program whose work a call is, and what it must print.
fn due(call: &Call) -> Option<(&'static str, Vec<u8>)> {
    let input = |number: usize| &call.inputs[number][..];
    let mut output = vec![0; citronhelm::MOST_SHEET];
    let (program, written) = match call.service {
        Service::Normal if !call.negated => ("normal", normal(input(0), false, &mut output).map(Some)),
        Service::JudgeText => ("judge", judge_text(input(0), input(1), &mut output).map(Some)),
        Service::MakeSheet => ("sheet", make_sheet(input(0), input(1), &mut output)),
        Service::CheckSheet => {
            let found = check_sheet(input(0), input(1), input(2));
            return Some(("check_sheet", found.map_or_else(refused, |finding| finding.to_string().into_bytes())));
        }
        _ => return None,
    };
    let text = |length: Option<usize>| length.map_or(b"none\n".to_vec(), |length| output[..length].to_vec());
    Some((program, written.map_or_else(refused, text)))
}

fn refused(refusal: Refusal) -> Vec<u8> {
    refusal.to_string().into_bytes()
}

/// What a program prints on the files of a call.
fn printed(program: &Path, scratch: &Path, call: &Call) -> std::io::Result<Vec<u8>> {
    for (name, file) in NAMES.iter().zip(&call.inputs) {
        std::fs::write(scratch.join(name), file)?;
    }
    Ok(Command::new(program).current_dir(scratch).output()?.stdout)
}
