// Rule files and the normal form.
use crate::reading::{number, Fault, Lines};

#[derive(Clone, Copy, Debug, PartialEq)]
pub enum Kind {
    True,
    False,
    Sig,
    Nsig,
    Not,
    Next,
    Always,
    Ever,
    And,
    Or,
    Weak,
    Srelease,
    Until,
    Release,
}
use self::Kind::*;

// kind (each at its own place), word, how many numbers, whether they are operands, partner
pub const KINDS: [(Kind, &str, usize, bool, Kind); 14] = [
    (True, "true", 0, false, False),
    (False, "false", 0, false, True),
    (Sig, "sig", 1, false, Nsig),
    (Nsig, "nsig", 1, false, Sig),
    (Not, "not", 1, true, Not),
    (Next, "next", 1, true, Next),
    (Always, "always", 1, true, Ever),
    (Ever, "ever", 1, true, Always),
    (And, "and", 2, true, Or),
    (Or, "or", 2, true, And),
    (Weak, "weak", 2, true, Srelease),
    (Srelease, "srelease", 2, true, Weak),
    (Until, "until", 2, true, Release),
    (Release, "release", 2, true, Until),
];

impl Kind {
    pub fn partner(self) -> Kind {
        KINDS[self as usize].4
    }
}

/// A kind and its numbers, from 1 as in the file; what the kind does not have is 0.
#[derive(Clone, Copy)]
pub struct Row {
    pub kind: Kind,
    pub n: [usize; 2],
}

impl Row {
    pub fn numbers(&self) -> &[usize] {
        &self.n[..KINDS[self.kind as usize].2]
    }

    pub fn operands(&self) -> &[usize] {
        if KINDS[self.kind as usize].3 {
            self.numbers()
        } else {
            &[]
        }
    }
}

pub struct Rule {
    pub signals: usize,
    pub rows: Vec<Row>,
}

fn row(value: &str, place: usize, signals: usize) -> Result<Row, u32> {
    let mut words = value.split(' ');
    let word = words.next().unwrap();
    let &(kind, _, count, operands, _) = KINDS.iter().find(|k| k.1 == word).ok_or(2u32)?;
    let mut n = [0; 2];
    for x in &mut n[..count] {
        *x = words.next().and_then(number).ok_or(2u32)?;
    }
    if words.next().is_some() {
        return Err(2);
    }
    let most = if operands { place - 1 } else { signals };
    if n[..count].iter().any(|&x| x < 1 || x > most) {
        return Err(5);
    }
    Ok(Row { kind, n })
}

pub fn read_rule(file: &[u8]) -> Result<Rule, Fault> {
    let mut lines = Lines::new(file)?;
    lines.count("format", 1, 3)?;
    let signals = lines.count("signals", 32, 4)?;
    let count = lines.count("rows", 64, 4)?;
    let mut rows = Vec::with_capacity(count);
    for k in 1..=count {
        let value = lines.numbered('r', k)?;
        rows.push(row(value, k, signals).map_err(|reason| lines.fault(reason))?);
    }
    lines.end()?;
    Ok(Rule { signals, rows })
}

/// The normal form of the rule, or of its negation.
pub fn normal(rows: &[Row], negated: bool) -> Vec<Row> {
    let mut reached = vec![[false; 2]; rows.len()];
    reached[rows.len() - 1][negated as usize] = true;
    for (k, row) in rows.iter().enumerate().rev() {
        for s in 0..2 {
            if reached[k][s] {
                let t = if row.kind == Not { 1 - s } else { s };
                for n in row.operands() {
                    reached[n - 1][t] = true;
                }
            }
        }
    }
    let mut place = vec![[0; 2]; rows.len()];
    let mut out = Vec::with_capacity(2 * rows.len());
    for (k, &row) in rows.iter().enumerate() {
        for s in 0..2 {
            if !reached[k][s] {
                continue;
            }
            if row.kind == Not {
                place[k][s] = place[row.n[0] - 1][1 - s];
                continue;
            }
            let mut turned = row;
            if s == 1 {
                turned.kind = row.kind.partner();
            }
            for (i, n) in row.operands().iter().enumerate() {
                turned.n[i] = place[n - 1][s];
            }
            out.push(turned);
            place[k][s] = out.len();
        }
    }
    out
}
