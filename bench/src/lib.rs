//! Every service of the library once more in plain Rust, as one would write it without thought for speed or proof: lists of rows, a
//! byte for each truth value, texts put together by formatting. Measured beside the library by the program `speed`.

pub mod by_cycle;
pub mod checking;
pub mod circuits;
pub mod judging;
pub mod making;
pub mod monitors;
pub mod normal;
pub mod reading;
pub mod rule;
pub mod run;
pub mod sheets;
pub mod take;
pub mod truth;
