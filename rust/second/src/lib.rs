//! A second implementation of every service of Citronhelm, to hold the proved library to.
//!
//! It is written from the papers (the formats, the meaning, the monitors' table, the refusals) and shares no method with the
//! library: truth is evaluated by the quantifiers of the meaning, at every cycle anew; the normal form by recursion from the
//! root; a sheet is checked by running the monitors along the endless take; files are split into lines and words; a run is a rule
//! file and a take file, judged anew at each call; a circuit is simulated from its outputs down to its inputs, and the monitors are
//! wired by counting variables along; a loop is written out by appending one round after another.
//! It is meant to be plainly right and not to be fast.

#![forbid(unsafe_code)]

mod circuit;
mod judge;
mod lines;
mod monitor;
mod normal;
mod refusal;
mod rule;
mod run;
mod services;
mod sheet;
mod simulation;
mod take;
mod truth;
mod wiring;

#[cfg(test)]
mod cases;
#[cfg(test)]
mod padded_cases;

pub use judge::Verdict;
pub use refusal::Refusal;
pub use rule::WORDS;
pub use run::run_rule;
pub use services::*;
pub use sheet::Finding;
