// The monitors: 01's table, and the step service.
use crate::reading::Refusal;
use crate::rule::{normal, read_rule, Kind, Row};

/// What a monitor says in one cycle.
#[derive(Clone, Copy, Debug, PartialEq)]
pub struct Said {
    pub failed: bool,
    pub accept: bool,
    pub pending: bool,
}

/// One cycle of one row's monitor: `z` is its activator, `y` its pending one cycle earlier.
pub fn monitor(row: &Row, z: bool, y: bool, active: impl Fn(usize) -> bool, signal: impl Fn(usize) -> bool) -> Said {
    let a = || active(row.n[0]);
    let b = || active(row.n[1]);
    let g = z || y;
    let rest = Said { failed: false, accept: true, pending: false };
    match row.kind {
        Kind::True => rest,
        Kind::False => Said { failed: z, ..rest },
        Kind::Sig => Said { failed: z && !signal(row.n[0]), ..rest },
        Kind::Nsig => Said { failed: z && signal(row.n[0]), ..rest },
        Kind::Not => unreachable!("a normal form has no `not`"),
        Kind::And => Said { failed: z && !(a() && b()), ..rest },
        Kind::Or => Said { failed: z && !(a() || b()), ..rest },
        Kind::Next => Said { pending: z, failed: y && !a(), ..rest },
        Kind::Always => Said { pending: g, failed: g && !a(), ..rest },
        Kind::Ever => {
            let pending = g && !a();
            Said { pending, accept: !pending, ..rest }
        }
        Kind::Weak | Kind::Until => {
            let pending = g && !b();
            Said { pending, failed: pending && !a(), accept: row.kind == Kind::Weak || !pending }
        }
        Kind::Release | Kind::Srelease => {
            let pending = g && !a();
            Said { pending, failed: g && !b(), accept: row.kind == Kind::Release || !pending }
        }
    }
}

/// The step service: the digits of failed, then accept, then pending, each by row, at the front of `out`; how many they are. Digits
/// are the bytes `0` and `1`. Nothing is written where the call is refused.
pub fn step(rule: &[u8], pendings: &[u8], activators: &[u8], signals: &[u8], out: &mut [u8]) -> Result<usize, Refusal> {
    let rule = read_rule(rule).map_err(|fault| fault.of(1))?;
    let rows = normal(&rule.rows, false);
    let n = rows.len();
    let digits = |bytes: &[u8]| bytes.iter().all(|b| matches!(b, b'0' | b'1'));
    let refused = |reason| Err(Refusal { reason, file: 0, line: 0 });
    if !(digits(pendings) && digits(activators) && digits(signals)) {
        return refused(2);
    }
    if signals.len() != rule.signals {
        return refused(7);
    }
    if pendings.len() != n || activators.len() != n {
        return refused(9);
    }
    if out.len() < 3 * n {
        return refused(10);
    }
    for (k, row) in rows.iter().enumerate() {
        let on = |digits: &[u8], place: usize| digits[place - 1] == b'1';
        let z = on(activators, k + 1);
        let y = on(pendings, k + 1);
        let said = monitor(row, z, y, |m| on(activators, m), |s| on(signals, s));
        for (part, bit) in [said.failed, said.accept, said.pending].iter().enumerate() {
            out[part * n + k] = b'0' + *bit as u8;
        }
    }
    Ok(3 * n)
}
