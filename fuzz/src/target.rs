//! The targets: which files an input holds, and which services are called with them.

use crate::compare::{alike, alike_writing, coded};
use crate::runs::on_run;
use crate::{library, parts, tally};
use std::hint::black_box;
use std::sync::OnceLock;

/// The most that a service writes, as in `include/citronhelm.h`.
const MOST_NORMAL: usize = 2845;
const MOST_STEP: usize = 384;
const MOST_TEXT: usize = 64;
const MOST_SHEET: usize = 33_567;
const MOST_CIRCUIT: usize = 9789;

#[derive(Clone, Copy, Debug, PartialEq, Eq)]
pub enum Target {
    /// A rule file: reading, bound, rows, normal forms and their lengths, the circuit.
    Rule,
    /// A take file: reading.
    Take,
    /// A sheet file: reading.
    Sheet,
    /// Rule and take: the verdicts, the text of `judge`, the sheet made and its length.
    Judge,
    /// Rule, take and sheet: the check.
    Check,
    /// Rule, pendings, activators and signals: one step.
    Step,
    /// Rule, calls and changes: a run.
    Run,
    /// Inputs, latches and a circuit file: one cycle of it.
    Circuit,
}

use Target::*;

impl Target {
    /// The target that the running program is named after.
    pub fn of_program() -> Target {
        static TARGET: OnceLock<Target> = OnceLock::new();
        *TARGET.get_or_init(|| {
            tally::print_at_exit();
            let program = std::env::args().next().unwrap_or_default();
            match program.rsplit('/').next() {
                Some("rule") => Rule,
                Some("take") => Take,
                Some("sheet") => Sheet,
                Some("judge") => Judge,
                Some("check") => Check,
                Some("step") => Step,
                Some("run") => Run,
                Some("circuit") => Circuit,
                _ => panic!("{program} is not named after a target"),
            }
        })
    }

    /// How many files an input holds.
    pub fn files(self) -> usize {
        match self {
            Rule | Take | Sheet => 1,
            Judge => 2,
            Check | Run | Circuit => 3,
            Step => 4,
        }
    }

    /// Calls the services on both sides, with copies that have no byte more than the files; the copies must stay as they are.
    pub fn run(self, input: &[u8]) {
        let files = parts::split(input, self.files());
        let copies: Vec<Box<[u8]>> = files.iter().map(|file| Box::from(*file)).collect();
        match &copies[..] {
            [rule] if self == Rule => on_rule(rule),
            [take] if self == Take => alike("read_take", library::read_take(take), coded(second::read_take(take))),
            [sheet] if self == Sheet => {
                alike("read_sheet", library::read_sheet(sheet), coded(second::read_sheet(sheet)))
            }
            [rule, take] => on_pair(rule, take),
            [rule, calls, changes] if self == Run => on_run(rule, calls, changes),
            [inputs, latches, circuit] if self == Circuit => alike_writing(
                "simulate",
                circuit.len(), // an output takes two bytes at least, a latch four
                None,
                |output| library::simulate(circuit, inputs, latches, output),
                |output| coded(second::simulate(circuit, inputs, latches, output)),
            ),
            [rule, take, sheet] => alike(
                "check_sheet",
                library::check_sheet(rule, take, sheet),
                coded(second::check_sheet(rule, take, sheet)),
            ),
            [rule, pendings, activators, signals] => alike_writing(
                "step",
                MOST_STEP,
                None,
                |output| library::step(rule, pendings, activators, signals, output),
                |output| coded(second::step(rule, pendings, activators, signals, output)),
            ),
            _ => unreachable!("a target has its number of files"),
        }
        assert!(black_box(&copies).iter().zip(&files).all(|(copy, file)| **copy == **file), "an input was altered");
    }
}

fn on_rule(rule: &[u8]) {
    alike("read_rule", library::read_rule(rule), coded(second::read_rule(rule)));
    alike("bound", library::bound(rule), coded(second::bound(rule)));
    alike("rows", library::rows(rule), coded(second::rows(rule)));
    for (service, length, negated) in
        [("normal", "normal_length", false), ("normal negated", "normal_length negated", true)]
    {
        let told = library::normal_length(rule, negated);
        alike(length, told, coded(second::normal_length(rule, negated)));
        alike_writing(
            service,
            MOST_NORMAL,
            Some(told),
            |output| library::normal(rule, negated, output),
            |output| coded(second::normal(rule, negated, output)),
        );
    }
    alike_writing(
        "circuit",
        MOST_CIRCUIT,
        None,
        |output| library::circuit(rule, output),
        |output| coded(second::circuit(rule, output)),
    );
}

fn on_pair(rule: &[u8], take: &[u8]) {
    alike("judge", library::judge(rule, take), coded(second::judge(rule, take)));
    alike("judge_looped", library::judge_looped(rule, take), coded(second::judge_looped(rule, take)));
    alike("judge_open", library::judge_open(rule, take), coded(second::judge_open(rule, take)));
    alike_writing(
        "judge_text",
        MOST_TEXT,
        None,
        |output| library::judge_text(rule, take, output),
        |output| coded(second::judge_text(rule, take, output)),
    );
    let told = library::sheet_length(rule, take);
    alike("sheet_length", told, coded(second::sheet_length(rule, take)));
    alike_writing(
        "make_sheet",
        MOST_SHEET,
        Some(told),
        |output| library::make_sheet(rule, take, output),
        |output| coded(second::make_sheet(rule, take, output)),
    );
}
