//! Rules of linear temporal logic checked on recorded signals, by services that are proved to answer as their definitions say on
//! every input.
//!
//! A *rule* file holds a formula, row by row; a *take* file a recording, a digit for each signal in each cycle, which either
//! stops (an open take) or ends in a loop that repeats without end; a *sheet* file the activators of the rule's monitors. How they
//! are written stands in the project's `docs/FORMATS.md`. All services take files as bytes, any bytes: whatever is wrong with
//! them is answered by a [`Refusal`] with its number, file and line. Outputs are written into slices that the caller lends; a
//! refused call leaves them as they were, and an answered one leaves the bytes behind its output as they were.
//!
//! Numbers in a file's values may have leading zeros, five digits in all at most, as in `cycles=00012`. Numbers in its keys (`r1=`,
//! `c0=`, `z1=`) may not, nor may those of a circuit file, and the digits of `c` and `z` lines are no numbers. What is written has no leading
//! zeros.
//!
//! The services have no state and need no memory but the caller's; the functions whose names end in `_vec` allocate, no more than they
//! return. How long an output has to be is said beforehand by [`normal_length`] for [`normal`] and by [`sheet_length`] for [`make_sheet`].
//! [`Monitors`] keeps what [`step`] needs from one cycle to the next, and [`Run`] judges a take while it is recorded. For hardware checkers
//! [`circuit`] writes the monitors as an ASCII AIGER file, and [`simulate`] runs such a file.
//!
//! The example below, which the other examples use as well, says: always, when signal 1 is on, sooner or later signal 2 is.
//!
//! ```
//! use citronhelm::{judge, Verdict};
//!
//! let rule = b"format=1\nsignals=2\nrows=6\n\
//!     r1=sig 1\nr2=not 1\nr3=sig 2\nr4=ever 3\nr5=or 2 4\nr6=always 5\n";
//! let looped = b"format=1\nsignals=2\ncycles=2\nloop=0\nc0=10\nc1=01\n";
//! let open = b"format=1\nsignals=2\ncycles=1\nloop=none\nc0=10\n";
//!
//! assert_eq!(judge(rule, looped), Ok(Verdict::Holds));
//! assert_eq!(judge(rule, open), Ok(Verdict::Open));
//! ```
//!
//! The same with padded numbers:
//!
//! ```
//! use citronhelm::{judge, Verdict};
//!
//! let rule = b"format=00001\nsignals=00002\nrows=00006\n\
//!     r1=sig 00001\nr2=not 00001\nr3=sig 00002\nr4=ever 00003\nr5=or 00002 00004\nr6=always 00005\n";
//! let looped = b"format=00001\nsignals=00002\ncycles=00002\nloop=00000\nc0=10\nc1=01\n";
//! let open = b"format=00001\nsignals=00002\ncycles=00001\nloop=none\nc0=10\n";
//!
//! assert_eq!(judge(rule, looped), Ok(Verdict::Holds));
//! assert_eq!(judge(rule, open), Ok(Verdict::Open));
//! ```

#![deny(unsafe_code)]

mod circuits;
mod declarations;
mod finding;
mod judging;
mod reading;
mod refusal;
mod run;
mod sheets;
mod steps;
mod verdict;

pub use circuits::{circuit, circuit_vec, simulate, MOST_CIRCUIT, MOST_SIMULATE};
pub use finding::Finding;
pub use judging::{judge, judge_looped, judge_open, judge_text, MOST_TEXT};
pub use reading::{bound, normal, normal_length, normal_vec, read_rule, read_sheet, read_take, rows, MOST_NORMAL};
pub use refusal::{File, Reason, Refusal};
pub use run::{run_begin, run_cycle, run_verdict, Run, RUN};
pub use sheets::{check_sheet, make_sheet, make_sheet_vec, sheet_length, MOST_SHEET};
pub use steps::{step, Monitors, Outputs, MOST_STEP};
pub use verdict::Verdict;
