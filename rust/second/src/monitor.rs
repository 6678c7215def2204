//! The monitors, as their table has them.

use crate::rule::Row::{self, *};
use crate::rule::Rule;

/// What a monitor gives in one cycle.
#[derive(Clone, Copy, Debug, PartialEq, Eq)]
pub struct Given {
    pub failed: bool,
    pub accept: bool,
    pub pending: bool,
}

/// What is not named in the table.
const QUIET: Given = Given { failed: false, accept: true, pending: false };

/// The activators and signals of one cycle; rows and signals count from 1.
pub struct Cycle<'a> {
    pub activators: &'a [bool],
    pub signals: &'a [bool],
}

impl Cycle<'_> {
    /// The monitor of a row with activator `z`; `y` is its pending one cycle earlier.
    fn monitor(&self, row: Row, z: bool, y: bool) -> Given {
        let active = |row: usize| self.activators[row - 1];
        let signal = |signal: usize| self.signals[signal - 1];
        let g = z || y;
        match row {
            True => QUIET,
            False => Given { failed: z, ..QUIET },
            Sig(s) => Given { failed: z && !signal(s), ..QUIET },
            Nsig(s) => Given { failed: z && signal(s), ..QUIET },
            Not(_) => unreachable!("a normal form has no `not` row"),
            And(a, b) => Given { failed: z && !(active(a) && active(b)), ..QUIET },
            Or(a, b) => Given { failed: z && !(active(a) || active(b)), ..QUIET },
            Next(a) => Given { pending: z, failed: y && !active(a), ..QUIET },
            Always(a) => Given { pending: g, failed: g && !active(a), ..QUIET },
            Ever(a) => accepting(Given { pending: g && !active(a), ..QUIET }),
            Weak(a, b) => weak(g, active(a), active(b)),
            Until(a, b) => accepting(weak(g, active(a), active(b))),
            Release(a, b) => release(g, active(a), active(b)),
            Srelease(a, b) => accepting(release(g, active(a), active(b))),
        }
    }

    /// All monitors of a normal form; `pendings` are those one cycle earlier.
    pub fn monitors(&self, normal: &Rule, pendings: &[bool]) -> Vec<Given> {
        let inputs = self.activators.iter().zip(pendings);
        normal.rows.iter().zip(inputs).map(|(&row, (&z, &y))| self.monitor(row, z, y)).collect()
    }
}

/// The monitor of weak, but for accept that of until as well.
fn weak(g: bool, a: bool, b: bool) -> Given {
    let pending = g && !b;
    Given { pending, failed: pending && !a, ..QUIET }
}

/// The monitor of release, but for accept that of srelease as well.
fn release(g: bool, a: bool, b: bool) -> Given {
    Given { pending: g && !a, failed: g && !b, ..QUIET }
}

/// The same with accept not pending.
fn accepting(given: Given) -> Given {
    Given { accept: !given.pending, ..given }
}
