//! The services, and each implementation called alike: the answer as one number, as the library gives it in C.
use crate::inputs::{Inputs, RULE_A};
use plain::{by_cycle, checking, circuits, judging, making, monitors, normal, reading, rule, run, sheets, take};

#[derive(Clone, Copy, Debug, PartialEq)]
pub enum Service {
    ReadRule,
    ReadTake,
    ReadSheet,
    ReadPaddedRule,
    ReadPaddedTake,
    ReadPaddedSheet,
    Normal,
    NormalLength,
    JudgeLooped,
    JudgeByCycle,
    JudgeOpen,
    Step,
    MakeSheet,
    SheetLength,
    CheckSheet,
    RunBegin,
    FirstCycle,
    MiddleCycle,
    LastCycle,
    RunVerdict,
    Circuit,
    Simulate,
    CircuitOfA,
    SimulateOfA,
}
use Service::*;

impl Service {
    pub const ALL: [Service; 24] = [
        ReadRule,
        ReadTake,
        ReadSheet,
        ReadPaddedRule,
        ReadPaddedTake,
        ReadPaddedSheet,
        Normal,
        NormalLength,
        JudgeLooped,
        JudgeByCycle,
        JudgeOpen,
        Step,
        MakeSheet,
        SheetLength,
        CheckSheet,
        RunBegin,
        FirstCycle,
        MiddleCycle,
        LastCycle,
        RunVerdict,
        Circuit,
        Simulate,
        CircuitOfA,
        SimulateOfA,
    ];

    pub fn name(self) -> &'static str {
        match self {
            ReadRule => "read a rule",
            ReadTake => "read a take",
            ReadSheet => "read a sheet",
            ReadPaddedRule => "read a rule, padded",
            ReadPaddedTake => "read a take, padded",
            ReadPaddedSheet => "read a sheet, padded",
            Normal => "normal form",
            NormalLength => "length of the normal form",
            JudgeLooped => "judge, looped",
            JudgeByCycle => "judge, looped, same schedule",
            JudgeOpen => "judge, open",
            Step => "step",
            MakeSheet => "make a sheet",
            SheetLength => "length of a sheet",
            CheckSheet => "check a sheet",
            RunBegin => "begin a run",
            FirstCycle => "take a cycle, the first",
            MiddleCycle => "take a cycle, half before it",
            LastCycle => "take a cycle, the last",
            RunVerdict => "verdict of a run",
            Circuit => "circuit of the monitors",
            Simulate => "simulate a cycle",
            CircuitOfA => "circuit of rule A's monitors",
            SimulateOfA => "simulate a cycle of rule A's",
        }
    }

    /// The service that says how much this one writes, of those that have one.
    pub fn length(self) -> Option<Service> {
        match self {
            Normal => Some(NormalLength),
            MakeSheet => Some(SheetLength),
            _ => None,
        }
    }

    /// Whether the cost may depend on the rule's rows, and on the take's cycles. A cycle's does not depend on those before it; that this is
    /// so is to be seen.
    pub fn grows_in(self) -> (bool, bool) {
        let only_rows =
            matches!(self, ReadRule | ReadPaddedRule | Normal | NormalLength | Step | RunBegin | FirstCycle | Circuit | Simulate);
        let neither = matches!(self, CircuitOfA | SimulateOfA);
        (!neither && !matches!(self, ReadTake | ReadPaddedTake), !neither && !only_rows)
    }

    /// The call that reads what this one reads and does no more.
    pub fn reading(self) -> Option<Call> {
        match self {
            ReadRule | ReadTake | ReadSheet | ReadPaddedRule | ReadPaddedTake | ReadPaddedSheet => None,
            FirstCycle | MiddleCycle | LastCycle | RunVerdict | CircuitOfA => None,
            Normal | NormalLength | Step | RunBegin | Circuit => Some(Call { service: ReadRule, only_read: false }),
            JudgeLooped | JudgeByCycle | JudgeOpen | MakeSheet | SheetLength | CheckSheet | Simulate | SimulateOfA => {
                Some(Call { service: self, only_read: true })
            }
        }
    }
}

/// A call of a service. With `only_read` rule and take differ in `signals`, and a circuit has an input less: all files are read to their
/// ends, and the call is refused. A run has its rule in it.
#[derive(Clone, Copy, Debug, PartialEq)]
pub struct Call {
    pub service: Service,
    pub only_read: bool,
}

#[derive(Clone, Copy, Debug, PartialEq)]
pub enum Implementation {
    Proved,
    Plain,
    Second,
    BitParallel,
}

impl Implementation {
    pub const ALL: [Implementation; 4] =
        [Implementation::Proved, Implementation::Plain, Implementation::Second, Implementation::BitParallel];

    /// Judging by cycle is the library's way to judge looped takes, and plain Rust's second.
    pub fn offers(self, service: Service) -> bool {
        match self {
            Implementation::Proved | Implementation::Plain => true,
            Implementation::Second => service != JudgeByCycle,
            Implementation::BitParallel => matches!(service, JudgeLooped | JudgeOpen),
        }
    }

    /// Makes the call. What is written stands at the front of `out`, and the answer is its length; or the run with a cycle more, which is
    /// copied there first, so that every call finds it as it was.
    pub fn call(self, call: Call, given: &Inputs, out: &mut Vec<u8>) -> u64 {
        let rule = if call.only_read { &given.other } else { &given.rule };
        if let Some(run) = given.run(call.service) {
            out[..run.len()].copy_from_slice(run);
        }
        match self {
            Implementation::Proved => proved(call, rule, given, out),
            Implementation::Plain => plain(call, rule, given, out),
            Implementation::Second => second(call, rule, given, out),
            Implementation::BitParallel => bit_parallel(call.service, rule, given),
        }
    }
}

fn refused(reason: u64, file: u64, line: u64) -> u64 {
    1 << 63 | line << 16 | file << 8 | reason
}

fn found(finding: u64, row: u64, cycle: u64) -> u64 {
    cycle << 16 | row << 8 | finding
}

fn proved(call: Call, rule: &[u8], given: &Inputs, out: &mut [u8]) -> u64 {
    use citronhelm as c;
    let read = |(): ()| 0;
    let length = |length: usize| length as u64;
    let verdict = |verdict: c::Verdict| verdict as u64 + 1;
    let finding = |finding| match finding {
        c::Finding::Root => found(1, 0, 0),
        c::Finding::Failed { row, cycle } => found(2, row.into(), cycle.into()),
        c::Finding::Starved { row } => found(3, row.into(), 0),
        c::Finding::Pending { row } => found(4, row.into(), 0),
        c::Finding::Passes => found(5, 0, 0),
    };
    let [circuit, inputs, latches] = given.cycle(call);
    let answer = match call.service {
        ReadRule => c::read_rule(rule).map(read),
        ReadTake => c::read_take(&given.looped).map(read),
        ReadSheet => c::read_sheet(&given.sheet).map(read),
        ReadPaddedRule => c::read_rule(&given.padded_rule).map(read),
        ReadPaddedTake => c::read_take(&given.padded_take).map(read),
        ReadPaddedSheet => c::read_sheet(&given.padded_sheet).map(read),
        Normal => c::normal(rule, false, out).map(length),
        NormalLength => c::normal_length(rule, false).map(length),
        JudgeLooped | JudgeByCycle => c::judge_looped(rule, &given.looped).map(verdict),
        JudgeOpen => c::judge_open(rule, &given.open).map(verdict),
        Step => c::step(rule, &given.pendings, &given.activators, &given.signals, out).map(length),
        MakeSheet => c::make_sheet(rule, &given.looped, out).map(|made| made.map_or(0, length)),
        SheetLength => c::sheet_length(rule, &given.looped).map(length),
        CheckSheet => c::check_sheet(rule, &given.looped, &given.sheet).map(finding),
        RunBegin => c::run_begin(rule, out).map(length),
        FirstCycle | MiddleCycle | LastCycle => c::run_cycle(&mut out[..given.whole_run.len()], &given.signals).map(read),
        RunVerdict => c::run_verdict(&given.whole_run).map(verdict),
        Circuit => c::circuit(rule, out).map(length),
        CircuitOfA => c::circuit(RULE_A, out).map(length),
        Simulate | SimulateOfA => c::simulate(circuit, inputs, latches, out).map(length),
    };
    answer.unwrap_or_else(|r| refused(r.reason.number().into(), r.file.map_or(0, c::File::number).into(), r.line.into()))
}

/// The plain-Rust version makes its outputs, and they take the place of `out`; a step, a cycle and a run it writes as the others do.
fn plain(call: Call, rule: &[u8], given: &Inputs, out: &mut Vec<u8>) -> u64 {
    let of = |file: u32| move |fault: reading::Fault| fault.of(file);
    let length = |length: usize| length as u64;
    let verdict = |verdict: judging::Verdict| verdict as u64 + 1;
    let finding = |finding| match finding {
        checking::Finding::Root => found(1, 0, 0),
        checking::Finding::Failed { row, cycle } => found(2, row as u64, cycle as u64),
        checking::Finding::Starved { row } => found(3, row as u64, 0),
        checking::Finding::Pending { row } => found(4, row as u64, 0),
        checking::Finding::Passes => found(5, 0, 0),
    };
    let mut put = |bytes| {
        *out = bytes;
        out.len() as u64
    };
    let [circuit, inputs, latches] = given.cycle(call);
    let answer = match call.service {
        ReadRule => rule::read_rule(rule).map(used).map_err(of(1)),
        ReadTake => take::read_take(&given.looped).map(used).map_err(of(2)),
        ReadSheet => sheets::read_sheet(&given.sheet).map(used).map_err(of(3)),
        ReadPaddedRule => rule::read_rule(&given.padded_rule).map(used).map_err(of(1)),
        ReadPaddedTake => take::read_take(&given.padded_take).map(used).map_err(of(2)),
        ReadPaddedSheet => sheets::read_sheet(&given.padded_sheet).map(used).map_err(of(3)),
        Normal => normal::normal_file(rule, false).map(put),
        NormalLength => normal::normal_length(rule, false).map(length),
        JudgeLooped => judging::judge_files(rule, &given.looped, true).map(verdict),
        JudgeByCycle => by_cycle::judge_files(rule, &given.looped).map(verdict),
        JudgeOpen => judging::judge_files(rule, &given.open, false).map(verdict),
        Step => monitors::step(rule, &given.pendings, &given.activators, &given.signals, out).map(length),
        MakeSheet => making::make_files(rule, &given.looped).map(|made| made.map_or(0, |text| put(text.into_bytes()))),
        SheetLength => making::sheet_length(rule, &given.looped).map(length),
        CheckSheet => checking::check_files(rule, &given.looped, &given.sheet).map(finding),
        RunBegin => run::run_begin(rule, out).map(length),
        FirstCycle | MiddleCycle | LastCycle => run::run_cycle(&mut out[..given.whole_run.len()], &given.signals).map(|()| 0),
        RunVerdict => run::run_verdict(&given.whole_run).map(verdict),
        Circuit => circuits::circuit_file(rule).map(put),
        CircuitOfA => circuits::circuit_file(RULE_A).map(put),
        Simulate | SimulateOfA => circuits::simulate(circuit, inputs, latches, out).map(length),
    };
    answer.unwrap_or_else(|r| refused(r.reason.into(), r.file.into(), r.line as u64))
}

/// A table that was read is used, so that no part of its making is optimised away.
fn used<T>(table: T) -> u64 {
    std::hint::black_box(&table);
    0
}

fn second(call: Call, rule: &[u8], given: &Inputs, out: &mut [u8]) -> u64 {
    let read = |(): ()| 0;
    let length = |length: usize| length as u64;
    let finding = |finding| match finding {
        second::Finding::Root => found(1, 0, 0),
        second::Finding::Failed { row, cycle } => found(2, row as u64, cycle as u64),
        second::Finding::Starved { row } => found(3, row as u64, 0),
        second::Finding::Pending { row } => found(4, row as u64, 0),
        second::Finding::Passes => found(5, 0, 0),
    };
    let [circuit, inputs, latches] = given.cycle(call);
    let answer = match call.service {
        ReadRule => second::read_rule(rule).map(read),
        ReadTake => second::read_take(&given.looped).map(read),
        ReadSheet => second::read_sheet(&given.sheet).map(read),
        ReadPaddedRule => second::read_rule(&given.padded_rule).map(read),
        ReadPaddedTake => second::read_take(&given.padded_take).map(read),
        ReadPaddedSheet => second::read_sheet(&given.padded_sheet).map(read),
        Normal => second::normal(rule, false, out).map(length),
        NormalLength => second::normal_length(rule, false).map(length),
        JudgeLooped | JudgeByCycle => second::judge_looped(rule, &given.looped).map(by_number),
        JudgeOpen => second::judge_open(rule, &given.open).map(by_number),
        Step => second::step(rule, &given.pendings, &given.activators, &given.signals, out).map(length),
        MakeSheet => second::make_sheet(rule, &given.looped, out).map(|made| made.map_or(0, length)),
        SheetLength => second::sheet_length(rule, &given.looped).map(length),
        CheckSheet => second::check_sheet(rule, &given.looped, &given.sheet).map(finding),
        RunBegin => second::run_begin(rule, out).map(length),
        FirstCycle | MiddleCycle | LastCycle => second::run_cycle(&mut out[..given.whole_run.len()], &given.signals).map(read),
        RunVerdict => second::run_verdict(&given.whole_run).map(by_number),
        Circuit => second::circuit(rule, out).map(length),
        CircuitOfA => second::circuit(RULE_A, out).map(length),
        Simulate | SimulateOfA => second::simulate(circuit, inputs, latches, out).map(length),
    };
    answer.unwrap_or_else(turned_back)
}

/// The bit-parallel judge takes both kinds of takes.
fn bit_parallel(service: Service, rule: &[u8], given: &Inputs) -> u64 {
    let take = if service == JudgeLooped { &given.looped } else { &given.open };
    bitparallel::judge(rule, take).map_or_else(turned_back, by_number)
}

fn by_number(verdict: second::Verdict) -> u64 {
    verdict as u64 + 1
}

fn turned_back(refusal: second::Refusal) -> u64 {
    refused(refusal.number.into(), refusal.file.into(), refusal.line.into())
}
