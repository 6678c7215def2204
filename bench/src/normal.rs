// The normal form as a file, and its length.
use crate::reading::{number_length, Refusal};
use crate::rule::{normal, read_rule, Row, KINDS};
use std::io::Write;

/// The rule file of these rows.
fn rule_text(signals: usize, rows: &[Row]) -> Vec<u8> {
    let mut out = Vec::new();
    write!(out, "format=1\nsignals={signals}\nrows={}\n", rows.len()).unwrap();
    for (i, row) in rows.iter().enumerate() {
        write!(out, "r{}={}", i + 1, KINDS[row.kind as usize].1).unwrap();
        for n in row.numbers() {
            write!(out, " {n}").unwrap();
        }
        out.push(b'\n');
    }
    out
}

/// The length of the rule file of these rows.
fn rule_length(signals: usize, rows: &[Row]) -> usize {
    let mut length = "format=1\nsignals=\nrows=\n".len() + number_length(signals) + number_length(rows.len());
    for (i, row) in rows.iter().enumerate() {
        length += "r=\n".len() + number_length(i + 1) + KINDS[row.kind as usize].1.len();
        length += row.numbers().iter().map(|&n| " ".len() + number_length(n)).sum::<usize>();
    }
    length
}

/// The normal form of the rule in this file, or of its negation.
pub fn normal_file(rule: &[u8], negated: bool) -> Result<Vec<u8>, Refusal> {
    let rule = read_rule(rule).map_err(|fault| fault.of(1))?;
    Ok(rule_text(rule.signals, &normal(&rule.rows, negated)))
}

/// The length of that file.
pub fn normal_length(rule: &[u8], negated: bool) -> Result<usize, Refusal> {
    let rule = read_rule(rule).map_err(|fault| fault.of(1))?;
    Ok(rule_length(rule.signals, &normal(&rule.rows, negated)))
}
