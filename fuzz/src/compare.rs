//! One call on both sides: answers as the library codes them, and outputs.

use crate::tally;
use second::{Finding, Refusal, Verdict};

const REFUSED: u64 = 1 << 63;
const TOO_SHORT: u64 = REFUSED | 10;

/// An answer of the second implementation as the library's number.
pub trait Coded {
    fn code(self) -> u64;
}

impl Coded for () {
    fn code(self) -> u64 {
        0
    }
}

impl Coded for usize {
    fn code(self) -> u64 {
        self as u64
    }
}

/// No sheet is 0.
impl Coded for Option<usize> {
    fn code(self) -> u64 {
        self.map_or(0, Coded::code)
    }
}

impl Coded for Verdict {
    fn code(self) -> u64 {
        match self {
            Verdict::Holds => 1,
            Verdict::Breaks => 2,
            Verdict::Kept => 3,
            Verdict::Broken => 4,
            Verdict::Open => 5,
        }
    }
}

impl Coded for Finding {
    fn code(self) -> u64 {
        match self {
            Finding::Root => 1,
            Finding::Failed { row, cycle } => 2 | (row as u64) << 8 | (cycle as u64) << 16,
            Finding::Starved { row } => 3 | (row as u64) << 8,
            Finding::Pending { row } => 4 | (row as u64) << 8,
            Finding::Passes => 5,
        }
    }
}

/// An answer or a refusal as the library's number.
pub fn coded<T: Coded>(answer: Result<T, Refusal>) -> u64 {
    let refusal =
        |told: Refusal| REFUSED | u64::from(told.line) << 16 | u64::from(told.file) << 8 | u64::from(told.number);
    answer.map_or_else(refusal, Coded::code)
}

/// Ends the process unless the answers of both sides are equal.
pub fn alike(service: &'static str, library: u64, second: u64) {
    assert!(library == second, "{service}: the library answers {library:#x}, the second implementation {second:#x}");
    tally::count(service, library);
}

/// The same for a service that writes: with an output that is long enough, with one as long as what is written, and with one
/// that is a byte too short. `told` is what the service for its length answers, if it has one; all answers are held to it. Each side
/// gets an output of its own, filled alike; they must be equal to the last byte afterwards.
pub fn alike_writing(
    service: &'static str,
    most: usize,
    told: Option<u64>,
    library: impl Fn(&mut [u8]) -> u64,
    second: impl Fn(&mut [u8]) -> u64,
) {
    let call = |length: usize| {
        let (mut ours, mut theirs) = (vec![0xa5; length], vec![0xa5; length]);
        let answer = library(&mut ours);
        alike(service, answer, second(&mut theirs));
        assert!(ours == theirs, "{service}: the outputs of {length} bytes differ");
        answer
    };
    let answer = call(most);
    let told = told.unwrap_or(answer);
    assert!(answer == told, "{service}: its length is told as {told:#x}, and it answers {answer:#x}");
    if told & REFUSED == 0 {
        let length = told as usize;
        assert!(call(length) == told, "{service}: {length} bytes do not do");
        assert!(length == 0 || call(length - 1) == TOO_SHORT, "{service}: a byte fewer than {length} does");
    }
}
