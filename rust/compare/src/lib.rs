//! Calls of every service, to hold implementations together on: the papers' cases, all small rules and takes, numbers padded and not, and
//! random calls, valid and damaged; runs, call after call; circuits; and rules with many rows on one branch that look ahead, on looped
//! takes. What a call leaves is compared whole: the answer, the inputs and every byte of the output.

#![forbid(unsafe_code)]

mod call;
mod cases;
mod circuits;
mod comparison;
mod damage;
mod exhaustive;
mod files;
mod implementations;
mod nested;
mod nesting;
mod padding;
mod programs;
mod random;
mod runs;
mod shown;
mod states;
mod tally;
mod trials;

pub use call::{Answer, Call, Outcome, Service};
pub use cases::check as papers_cases;
pub use circuits::hold_to_steps;
pub use comparison::{hold_to_length, same, Implementation};
pub use exhaustive::run as all_small;
pub use implementations::{by_proved, by_second, by_words};
pub use nested::run as nested_calls;
pub use programs::hold_programs;
pub use tally::Tally;
pub use trials::{random_calls, Make};
