//! The negation normal form, by recursion from the root.

use crate::rule::Row::{self, *};
use crate::rule::Rule;
use std::collections::BTreeSet;

/// A row of a rule with the sign it is taken with. The derived order is that of the normal form: by number, plain before negated.
#[derive(Clone, Copy, PartialEq, Eq, PartialOrd, Ord)]
struct Signed {
    row: usize,
    negated: bool,
}

impl Signed {
    /// The row that `self` stands for: a `not` row stands for its operand with the sign turned.
    fn resolved(self, rule: &Rule) -> Signed {
        match rule.rows[self.row - 1] {
            Not(a) => Signed { row: a, negated: !self.negated }.resolved(rule),
            _ => self,
        }
    }

    /// Puts the row that `self` stands for and all that it reaches into `reached`; its operands take its sign.
    fn reach(self, rule: &Rule, reached: &mut BTreeSet<Signed>) {
        let signed = self.resolved(rule);
        if reached.insert(signed) {
            for row in rule.rows[signed.row - 1].operands() {
                Signed { row, ..signed }.reach(rule, reached);
            }
        }
    }
}

/// The normal form of a rule, or of the negated rule.
pub fn normal_form(rule: &Rule, negated: bool) -> Rule {
    let mut reached = BTreeSet::new();
    Signed { row: rule.rows.len(), negated }.reach(rule, &mut reached);
    let place = |signed: Signed| 1 + reached.range(..signed.resolved(rule)).count();
    let row = |signed: &Signed| {
        let written = rule.rows[signed.row - 1];
        let kind = if signed.negated { partner(written) } else { written };
        renumbered(kind, |row| place(Signed { row, ..*signed }))
    };
    Rule { signals: rule.signals, rows: reached.iter().map(row).collect() }
}

/// The partner under negation, its numbers left as they are.
fn partner(row: Row) -> Row {
    match row {
        True => False,
        False => True,
        Sig(s) => Nsig(s),
        Nsig(s) => Sig(s),
        Not(_) => unreachable!("a `not` row gets no row"),
        And(a, b) => Or(a, b),
        Or(a, b) => And(a, b),
        Next(a) => Next(a),
        Always(a) => Ever(a),
        Ever(a) => Always(a),
        Weak(a, b) => Srelease(a, b),
        Until(a, b) => Release(a, b),
        Release(a, b) => Until(a, b),
        Srelease(a, b) => Weak(a, b),
    }
}

/// The row with other numbers for its operands.
fn renumbered(row: Row, number: impl Fn(usize) -> usize) -> Row {
    match row {
        True | False | Sig(_) | Nsig(_) => row,
        Not(a) => Not(number(a)),
        And(a, b) => And(number(a), number(b)),
        Or(a, b) => Or(number(a), number(b)),
        Next(a) => Next(number(a)),
        Always(a) => Always(number(a)),
        Ever(a) => Ever(number(a)),
        Weak(a, b) => Weak(number(a), number(b)),
        Until(a, b) => Until(number(a), number(b)),
        Release(a, b) => Release(number(a), number(b)),
        Srelease(a, b) => Srelease(number(a), number(b)),
    }
}
