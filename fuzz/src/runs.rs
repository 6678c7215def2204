//! A run on both sides, call after call, and then calls on its changed bytes.

use crate::compare::{alike, alike_writing, coded};
use crate::library;

/// The bytes of a run, as in `include/citronhelm.h`, and where its number of signals stands.
const RUN: usize = 1220;
const SIGNALS: usize = 1216;
/// How many calls of an input are made, and how many of these for the verdict, which the second implementation takes long for.
const MOST_CALLS: usize = 300;
const MOST_VERDICTS: usize = 16;

/// Begins a run with the rule and makes the calls: each line is a cycle, or asks for the verdict where it is `?`. Then the bytes of
/// the run are changed, and calls are made with what they are.
pub fn on_run(rule: &[u8], calls: &[u8], changes: &[u8]) {
    alike_writing(
        "run_begin",
        RUN + 16,
        None,
        |run| library::run_begin(rule, run),
        |run| coded(second::run_begin(rule, run)),
    );
    let mut run = vec![0; RUN];
    if second::run_begin(rule, &mut run).is_err() {
        return;
    }
    let mut verdicts = 0;
    for call in calls.strip_suffix(b"\n").unwrap_or(calls).split(|byte| *byte == b'\n').take(MOST_CALLS) {
        if call != b"?" {
            cycle(&mut run, call);
        } else if verdicts < MOST_VERDICTS {
            verdict(&run);
            verdicts += 1;
        }
    }
    let mut run = changed(run, changes);
    let digits = vec![b'1'; run.get(SIGNALS).map_or(1, |signals| usize::from(*signals))];
    verdict(&run);
    cycle(&mut run, &digits);
    cycle(&mut run, b"1-");
    verdict(&run);
}

/// The next cycle, on copies of the run that have no byte more; it becomes what both sides leave.
fn cycle(run: &mut Vec<u8>, digits: &[u8]) {
    let (mut ours, digits): (Box<[u8]>, Box<[u8]>) = (run.as_slice().into(), digits.into());
    alike("run_cycle", library::run_cycle(&mut ours, &digits), coded(second::run_cycle(run, &digits)));
    assert!(*ours == **run, "run_cycle: the runs differ");
}

fn verdict(run: &[u8]) {
    let copy: Box<[u8]> = run.into();
    alike("run_verdict", library::run_verdict(&copy), coded(second::run_verdict(run)));
    assert!(*std::hint::black_box(copy) == *run, "run_verdict: the run was altered");
}

/// The run with changes of three bytes each: a place, the higher byte first, and the bits to turn there. A place behind the run gives
/// its length in the place of that: by how much it lies behind.
fn changed(mut run: Vec<u8>, changes: &[u8]) -> Vec<u8> {
    let mut length = RUN;
    for change in changes.chunks_exact(3) {
        let place = usize::from(u16::from_be_bytes([change[0], change[1]]));
        match run.get_mut(place) {
            Some(byte) => *byte ^= change[2],
            None => length = (place - RUN) % 2048,
        }
    }
    run.resize(length, 0);
    run
}
