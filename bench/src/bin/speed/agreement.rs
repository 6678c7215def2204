//! All implementations held together on what is measured, and on damaged files.
use crate::inputs::{Inputs, Size};
use crate::services::{Call, Implementation, Service};

/// The answer and what was written, which the answer gives the length of where a service writes; or the run, which a refused cycle
/// leaves as it was.
fn outcome(by: Implementation, call: Call, given: &Inputs) -> (u64, Vec<u8>) {
    let mut out = vec![0; citronhelm::MOST_SHEET];
    let answer = by.call(call, given, &mut out);
    let makes = matches!(call.service, Service::Normal | Service::Step | Service::MakeSheet | Service::RunBegin);
    let of_circuits = matches!(call.service, Service::Circuit | Service::CircuitOfA | Service::Simulate | Service::SimulateOfA);
    let writes = (makes || of_circuits) && answer >> 63 == 0;
    let length = given.run(call.service).map_or(0, <[u8]>::len);
    out.truncate(if writes { answer as usize } else { length });
    (answer, out)
}

/// Ends the program where the others differ from the library, or the library's length, or its refusal, from what is written.
fn same(call: Call, given: &Inputs, others: &[Implementation]) {
    let proved = outcome(Implementation::Proved, call, given);
    if let Some(service) = call.service.length() {
        let (length, _) = outcome(Implementation::Proved, Call { service, ..call }, given);
        assert!(length == proved.0, "{service:?} is not the length of {call:?}: {length:x} against {:x}", proved.0);
    }
    for &by in others.iter().filter(|by| by.offers(call.service)) {
        let (answer, out) = outcome(by, call, given);
        assert!(proved == (answer, out), "{by:?} and the library differ in {call:?}: {answer:x} against {:x}", proved.0);
    }
}

/// The file cut short, and with a byte changed in two ways, at every `step`th place.
fn damaged(file: &[u8], step: usize) -> Vec<Vec<u8>> {
    let mut files = Vec::new();
    for i in (0..file.len()).step_by(step) {
        files.push(file[..i].to_vec());
        for change in [1, b'9' ^ file[i]] {
            let mut other = file.to_vec();
            other[i] ^= change;
            files.push(other);
        }
    }
    files
}

/// The run with a byte changed in two ways, at every third place and among the counts, its last four bytes. Its length stays.
fn changed(run: &[u8]) -> Vec<Vec<u8>> {
    let places = (0..run.len()).filter(|i| i % 3 == 0 || i + 4 >= run.len());
    let change = |i: usize, by: u8| run.iter().enumerate().map(|(j, byte)| if i == j { byte ^ by } else { *byte }).collect();
    places.flat_map(|i| [change(i, 1), change(i, 128)]).collect()
}

/// The inputs with one of the files damaged; the place names it.
fn with_damage(size: Size) -> Vec<Inputs> {
    let given = Inputs::new(size);
    let mut all = Vec::new();
    let mut put = |files: Vec<Vec<u8>>, place: fn(&mut Inputs) -> &mut Vec<u8>| {
        for file in files {
            let mut other = given.clone();
            *place(&mut other) = file;
            all.push(other);
        }
    };
    put(damaged(&given.rule, 3), |inputs| &mut inputs.rule);
    put(damaged(&given.looped, 31), |inputs| &mut inputs.looped);
    put(damaged(&given.open, 31), |inputs| &mut inputs.open);
    put(damaged(&given.sheet, 101), |inputs| &mut inputs.sheet);
    put(damaged(&given.padded_rule, 11), |inputs| &mut inputs.padded_rule);
    put(damaged(&given.padded_take, 61), |inputs| &mut inputs.padded_take);
    put(damaged(&given.padded_sheet, 211), |inputs| &mut inputs.padded_sheet);
    put(damaged(&given.pendings, 5), |inputs| &mut inputs.pendings);
    put(damaged(&given.activators, 5), |inputs| &mut inputs.activators);
    put(damaged(&given.signals, 5), |inputs| &mut inputs.signals);
    put(damaged(&given.circuit, 61), |inputs| &mut inputs.circuit);
    put(damaged(&given.inputs, 5), |inputs| &mut inputs.inputs);
    put(damaged(&given.circuit_of_a, 5), |inputs| &mut inputs.circuit_of_a);
    put(changed(&given.runs[1]), |inputs| &mut inputs.runs[1]);
    put(changed(&given.whole_run), |inputs| &mut inputs.whole_run);
    all
}

/// Holds all implementations together on these inputs; the library, plain Rust and the bit-parallel judge also on damaged ones, where
/// the second implementation takes long. Says how many calls it tried.
pub fn hold_together(sizes: &[Size], inputs: &[Inputs]) -> String {
    let calls = || Service::ALL.into_iter().flat_map(|service| [false, true].map(|only_read| Call { service, only_read }));
    for given in inputs {
        calls().for_each(|call| same(call, given, &Implementation::ALL));
    }
    let quick = [Implementation::Plain, Implementation::BitParallel];
    let mut tried = 0;
    for &size in sizes {
        for given in with_damage(size) {
            Service::ALL.into_iter().for_each(|service| same(Call { service, only_read: false }, &given, &quick));
            tried += Service::ALL.len();
        }
    }
    format!(
        "The same answers and bytes on the {} calls to measure, and on {tried} calls with a damaged file.",
        calls().count() * inputs.len()
    )
}
