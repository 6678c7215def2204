//! The library's functions, declared as in `include/citronhelm.h`, and each with slices in the place of pointers and lengths. This is
//! the only module with unsafe code.
//!
//! Each call is sound for the same reasons: a slice's pointer and length name memory that is there and set for the time of the
//! call; the library reads inputs only, writes to its output only, within its length, and keeps no pointer; and an output, which
//! is borrowed mutably, cannot lie over an input. A run that a call alters is such an output.

#![allow(unsafe_code)]

extern "C" {
    fn citronhelm_read_rule(rule: *const u8, rule_length: usize) -> u64;
    fn citronhelm_read_take(take: *const u8, take_length: usize) -> u64;
    fn citronhelm_read_sheet(sheet: *const u8, sheet_length: usize) -> u64;
    fn citronhelm_bound(rule: *const u8, rule_length: usize) -> u64;
    fn citronhelm_rows(rule: *const u8, rule_length: usize) -> u64;
    fn citronhelm_normal_length(rule: *const u8, rule_length: usize, negated: u8) -> u64;
    fn citronhelm_normal(
        rule: *const u8,
        rule_length: usize,
        negated: u8,
        output: *mut u8,
        output_length: usize,
    ) -> u64;
    fn citronhelm_judge(rule: *const u8, rule_length: usize, take: *const u8, take_length: usize) -> u64;
    fn citronhelm_judge_looped(rule: *const u8, rule_length: usize, take: *const u8, take_length: usize) -> u64;
    fn citronhelm_judge_open(rule: *const u8, rule_length: usize, take: *const u8, take_length: usize) -> u64;
    fn citronhelm_judge_text(
        rule: *const u8,
        rule_length: usize,
        take: *const u8,
        take_length: usize,
        output: *mut u8,
        output_length: usize,
    ) -> u64;
    fn citronhelm_step(
        rule: *const u8,
        rule_length: usize,
        pendings: *const u8,
        pendings_length: usize,
        activators: *const u8,
        activators_length: usize,
        signals: *const u8,
        signals_length: usize,
        output: *mut u8,
        output_length: usize,
    ) -> u64;
    fn citronhelm_sheet_length(rule: *const u8, rule_length: usize, take: *const u8, take_length: usize) -> u64;
    fn citronhelm_make_sheet(
        rule: *const u8,
        rule_length: usize,
        take: *const u8,
        take_length: usize,
        output: *mut u8,
        output_length: usize,
    ) -> u64;
    fn citronhelm_check_sheet(
        rule: *const u8,
        rule_length: usize,
        take: *const u8,
        take_length: usize,
        sheet: *const u8,
        sheet_length: usize,
    ) -> u64;
    fn citronhelm_run_begin(rule: *const u8, rule_length: usize, run: *mut u8, run_length: usize) -> u64;
    fn citronhelm_run_cycle(run: *mut u8, run_length: usize, digits: *const u8, digits_length: usize) -> u64;
    fn citronhelm_run_verdict(run: *const u8, run_length: usize) -> u64;
    fn citronhelm_circuit(rule: *const u8, rule_length: usize, output: *mut u8, output_length: usize) -> u64;
    fn citronhelm_simulate(
        circuit: *const u8,
        circuit_length: usize,
        inputs: *const u8,
        inputs_length: usize,
        latches: *const u8,
        latches_length: usize,
        output: *mut u8,
        output_length: usize,
    ) -> u64;
}

pub fn read_rule(rule: &[u8]) -> u64 {
    unsafe { citronhelm_read_rule(rule.as_ptr(), rule.len()) }
}

pub fn read_take(take: &[u8]) -> u64 {
    unsafe { citronhelm_read_take(take.as_ptr(), take.len()) }
}

pub fn read_sheet(sheet: &[u8]) -> u64 {
    unsafe { citronhelm_read_sheet(sheet.as_ptr(), sheet.len()) }
}

pub fn bound(rule: &[u8]) -> u64 {
    unsafe { citronhelm_bound(rule.as_ptr(), rule.len()) }
}

pub fn rows(rule: &[u8]) -> u64 {
    unsafe { citronhelm_rows(rule.as_ptr(), rule.len()) }
}

pub fn normal_length(rule: &[u8], negated: bool) -> u64 {
    unsafe { citronhelm_normal_length(rule.as_ptr(), rule.len(), negated.into()) }
}

pub fn normal(rule: &[u8], negated: bool, output: &mut [u8]) -> u64 {
    unsafe { citronhelm_normal(rule.as_ptr(), rule.len(), negated.into(), output.as_mut_ptr(), output.len()) }
}

pub fn judge(rule: &[u8], take: &[u8]) -> u64 {
    unsafe { citronhelm_judge(rule.as_ptr(), rule.len(), take.as_ptr(), take.len()) }
}

pub fn judge_looped(rule: &[u8], take: &[u8]) -> u64 {
    unsafe { citronhelm_judge_looped(rule.as_ptr(), rule.len(), take.as_ptr(), take.len()) }
}

pub fn judge_open(rule: &[u8], take: &[u8]) -> u64 {
    unsafe { citronhelm_judge_open(rule.as_ptr(), rule.len(), take.as_ptr(), take.len()) }
}

pub fn judge_text(rule: &[u8], take: &[u8], output: &mut [u8]) -> u64 {
    unsafe {
        citronhelm_judge_text(rule.as_ptr(), rule.len(), take.as_ptr(), take.len(), output.as_mut_ptr(), output.len())
    }
}

pub fn step(rule: &[u8], pendings: &[u8], activators: &[u8], signals: &[u8], output: &mut [u8]) -> u64 {
    unsafe {
        citronhelm_step(
            rule.as_ptr(),
            rule.len(),
            pendings.as_ptr(),
            pendings.len(),
            activators.as_ptr(),
            activators.len(),
            signals.as_ptr(),
            signals.len(),
            output.as_mut_ptr(),
            output.len(),
        )
    }
}

pub fn sheet_length(rule: &[u8], take: &[u8]) -> u64 {
    unsafe { citronhelm_sheet_length(rule.as_ptr(), rule.len(), take.as_ptr(), take.len()) }
}

pub fn make_sheet(rule: &[u8], take: &[u8], output: &mut [u8]) -> u64 {
    unsafe {
        citronhelm_make_sheet(rule.as_ptr(), rule.len(), take.as_ptr(), take.len(), output.as_mut_ptr(), output.len())
    }
}

pub fn check_sheet(rule: &[u8], take: &[u8], sheet: &[u8]) -> u64 {
    unsafe { citronhelm_check_sheet(rule.as_ptr(), rule.len(), take.as_ptr(), take.len(), sheet.as_ptr(), sheet.len()) }
}

pub fn run_begin(rule: &[u8], run: &mut [u8]) -> u64 {
    unsafe { citronhelm_run_begin(rule.as_ptr(), rule.len(), run.as_mut_ptr(), run.len()) }
}

pub fn run_cycle(run: &mut [u8], digits: &[u8]) -> u64 {
    unsafe { citronhelm_run_cycle(run.as_mut_ptr(), run.len(), digits.as_ptr(), digits.len()) }
}

pub fn run_verdict(run: &[u8]) -> u64 {
    unsafe { citronhelm_run_verdict(run.as_ptr(), run.len()) }
}

pub fn circuit(rule: &[u8], output: &mut [u8]) -> u64 {
    unsafe { citronhelm_circuit(rule.as_ptr(), rule.len(), output.as_mut_ptr(), output.len()) }
}

pub fn simulate(circuit: &[u8], inputs: &[u8], latches: &[u8], output: &mut [u8]) -> u64 {
    unsafe {
        citronhelm_simulate(
            circuit.as_ptr(),
            circuit.len(),
            inputs.as_ptr(),
            inputs.len(),
            latches.as_ptr(),
            latches.len(),
            output.as_mut_ptr(),
            output.len(),
        )
    }
}
