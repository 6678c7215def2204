//! Fuzz targets: in each run an input is taken apart into files, the proved library and the second implementation are called with
//! them, and the process is ended at the first difference. libFuzzer finds the functions below by their names.

mod compare;
#[path = "../../rust/citronhelm/src/declarations.rs"]
mod library;
mod mend;
mod mutate;
mod parts;
mod random;
mod runs;
mod tally;
mod target;
mod wires;

use std::slice::{from_raw_parts, from_raw_parts_mut};
use target::Target;

extern "C" {
    fn LLVMFuzzerMutate(data: *mut u8, size: usize, most: usize) -> usize;
}

/// One run.
///
/// # Safety
/// `data` points to `size` bytes.
#[no_mangle]
pub unsafe extern "C" fn LLVMFuzzerTestOneInput(data: *const u8, size: usize) -> i32 {
    let input = if size == 0 { &[] } else { from_raw_parts(data, size) };
    Target::of_program().run(input);
    0
}

/// Makes another input of one, in its place; the new length.
///
/// # Safety
/// `data` points to `most` bytes, of which the first `size` are the input.
#[no_mangle]
pub unsafe extern "C" fn LLVMFuzzerCustomMutator(data: *mut u8, size: usize, most: usize, seed: u32) -> usize {
    let place = from_raw_parts_mut(data, most);
    let mut by_bytes = |file: &mut Vec<u8>| {
        let length = file.len();
        file.resize(most.max(length), 0);
        let length = LLVMFuzzerMutate(file.as_mut_ptr(), length, file.len());
        file.truncate(length);
    };
    let mutated = mutate::mutated(Target::of_program(), &place[..size], seed, &mut by_bytes);
    let length = mutated.len().min(most);
    place[..length].copy_from_slice(&mutated[..length]);
    length
}
