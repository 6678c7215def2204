//! Measures every service of the proved library beside the same service in plain Rust, in the slow second implementation, and, for
//! judging, bit-parallel: in one process, on the same bytes in memory, with warm caches. Before that it holds their answers and
//! outputs together, and it measures nothing if they differ.
//!
//!     speed               times, at full size and at smaller ones
//!     speed count         instructions at full size, by callgrind
//!     speed rounds        times of looped judging, by the rounds that it needs cycle by cycle
//!     speed write FOLDER  writes the rule, the takes, the sheet, these padded, the runs and the circuit of full size into a folder
mod agreement;
mod counting;
mod inputs;
mod rounds;
mod services;
mod tables;
mod timing;

use inputs::{Inputs, Size};
use services::{Call, Implementation, Service};
use std::hint::black_box;
use tables::Measured;

const FULL: Size = Size { rows: 64, cycles: 256 };
const SIZES: [Size; 5] =
    [Size { rows: 16, cycles: 256 }, Size { rows: 32, cycles: 256 }, Size { rows: 64, cycles: 64 }, Size { rows: 64, cycles: 128 }, FULL];

/// The calls to measure at a size: what cannot differ there from the full size is left out.
fn calls_at(size: Size) -> Vec<(Implementation, Call)> {
    let grows = |service: Service| {
        let (rows, cycles) = service.grows_in();
        size == FULL || rows && size.rows < FULL.rows || cycles && size.cycles < FULL.cycles
    };
    let mut calls = Vec::new();
    for service in Service::ALL.into_iter().filter(|&service| grows(service)) {
        for by in Implementation::ALL.into_iter().filter(|by| by.offers(service)) {
            let only_read = service.reading().filter(|reading| reading.only_read);
            calls.extend([Some(Call { service, only_read: false }), only_read].into_iter().flatten().map(|call| (by, call)));
        }
    }
    calls
}

fn times() {
    let inputs = SIZES.map(Inputs::new);
    println!("{}\n", agreement::hold_together(&SIZES, &inputs));
    let planned: Vec<(usize, Implementation, Call)> =
        (0..SIZES.len()).flat_map(|i| calls_at(SIZES[i]).into_iter().map(move |(by, call)| (i, by, call))).collect();
    let job = |&(i, by, call): &(usize, Implementation, Call)| -> Box<dyn FnMut() + '_> {
        let (given, mut out) = (&inputs[i], vec![0; citronhelm::MOST_SHEET]);
        Box::new(move || {
            black_box(by.call(call, black_box(given), black_box(&mut out)));
        })
    };
    let mut jobs: Vec<_> = planned.iter().map(job).collect();
    let times = timing::measure(&mut jobs);
    let measured = |(&(i, by, call), value)| Measured { size: SIZES[i], by, call, value };
    let all: Vec<_> = planned.iter().zip(times).map(measured).collect();
    tables::print_times(&all, FULL);
    println!();
    tables::print_growth(&all, &SIZES);
}

fn count() {
    let counted = |(by, call)| Measured { size: FULL, by, call, value: counting::instructions(by, call) };
    let all: Vec<_> = calls_at(FULL).into_iter().map(counted).collect();
    tables::print_counts(&all, FULL);
}

/// For `count`: so many calls and nothing else.
fn calls(words: &[String]) {
    let (by, call, calls) = counting::parsed(words).expect("IMPLEMENTATION SERVICE ONLY_READ CALLS");
    let (given, mut out) = (Inputs::new(FULL), vec![0; citronhelm::MOST_SHEET]);
    for _ in 0..calls {
        black_box(by.call(call, black_box(&given), black_box(&mut out)));
    }
}

fn write(folder: &str) -> std::io::Result<()> {
    let given = Inputs::new(FULL);
    let files = [("rule.txt", given.rule), ("take.txt", given.looped), ("open.txt", given.open), ("sheet.txt", given.sheet)];
    let padded = [("padded-rule.txt", given.padded_rule), ("padded-take.txt", given.padded_take), ("padded-sheet.txt", given.padded_sheet)];
    let [first, middle, last] = given.runs;
    let runs = [("run-0", first), ("run-128", middle), ("run-255", last), ("run-256", given.whole_run)];
    let cycle = [("circuit.aag", given.circuit), ("inputs", given.inputs), ("latches", given.pendings)];
    for (name, bytes) in files.into_iter().chain(padded).chain(runs).chain(cycle) {
        std::fs::write(std::path::Path::new(folder).join(name), bytes)?;
    }
    Ok(())
}

fn main() {
    let words: Vec<String> = std::env::args().skip(1).collect();
    match words.iter().map(String::as_str).collect::<Vec<_>>()[..] {
        [] => times(),
        ["count"] => count(),
        ["rounds"] => rounds::print(),
        ["calls", ..] => calls(&words[1..]),
        ["write", folder] => write(folder).expect("a folder that is there"),
        _ => panic!("speed [count | rounds | write FOLDER]"),
    }
}
