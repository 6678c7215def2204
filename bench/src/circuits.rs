// Circuits: the monitors as an ASCII AIGER file, and one cycle of any such file.
use crate::reading::{Fault, Lines, Refusal};
use crate::rule::{normal, read_rule, Kind, Row};
use std::io::Write;

/// A circuit's lines by their sections, as literals.
pub struct Circuit {
    pub inputs: Vec<[usize; 1]>,
    pub latches: Vec<[usize; 2]>,
    pub outputs: Vec<[usize; 1]>,
    pub gates: Vec<[usize; 3]>,
}

pub fn read_circuit(file: &[u8]) -> Result<Circuit, Fault> {
    let mut lines = Lines::new(file)?;
    let [most, inputs, latches, outputs, gates] = lines.numbers("aag ")?;
    if most != inputs + latches + gates {
        return Err(lines.fault(2));
    }
    let mut defined = vec![false; most + 1];
    let mut define = |literal: usize| {
        literal > 1 && literal.is_multiple_of(2) && literal / 2 <= most && !std::mem::replace(&mut defined[literal / 2], true)
    };
    let known = |literal: usize| literal <= 2 * most + 1;
    let inputs = section(&mut lines, inputs, |&[own]| define(own))?;
    let latches = section(&mut lines, latches, |&[own, next]| define(own) && known(next))?;
    let outputs = section(&mut lines, outputs, |&[literal]| known(literal))?;
    let gates = section(&mut lines, gates, |&[own, a, b]| define(own) && a < own && b < own)?;
    lines.end()?;
    Ok(Circuit { inputs, latches, outputs, gates })
}

/// So many lines of so many numbers each.
fn section<const N: usize>(lines: &mut Lines, count: usize, mut right: impl FnMut(&[usize; N]) -> bool) -> Result<Vec<[usize; N]>, Fault> {
    let mut all = Vec::new();
    for _ in 0..count {
        let numbers = lines.numbers("")?;
        if !right(&numbers) {
            return Err(lines.fault(2));
        }
        all.push(numbers);
    }
    Ok(all)
}

/// One cycle of the circuit in this file: the digits of the outputs, then of the next latches, at the front of `out`; how many they are.
/// Nothing is written where the call is refused.
pub fn simulate(circuit: &[u8], inputs: &[u8], latches: &[u8], out: &mut [u8]) -> Result<usize, Refusal> {
    let mut circuit = read_circuit(circuit).map_err(|fault| fault.of(1))?;
    let digits = |bytes: &[u8]| bytes.iter().all(|b| matches!(b, b'0' | b'1'));
    let refused = |reason| Err(Refusal { reason, file: 0, line: 0 });
    if !(digits(inputs) && digits(latches)) {
        return refused(2);
    }
    if inputs.len() != circuit.inputs.len() {
        return refused(7);
    }
    if latches.len() != circuit.latches.len() {
        return refused(9);
    }
    let length = circuit.outputs.len() + circuit.latches.len();
    if out.len() < length {
        return refused(10);
    }
    let mut values = vec![false; 1 + inputs.len() + latches.len() + circuit.gates.len()];
    for ([own], digit) in circuit.inputs.iter().zip(inputs) {
        values[own / 2] = *digit == b'1';
    }
    for ([own, _], digit) in circuit.latches.iter().zip(latches) {
        values[own / 2] = *digit == b'1';
    }
    let value = |values: &[bool], literal: usize| values[literal / 2] != (literal % 2 == 1);
    circuit.gates.sort_unstable(); // operands are lower
    for &[own, a, b] in &circuit.gates {
        values[own / 2] = value(&values, a) && value(&values, b);
    }
    let asked = circuit.outputs.iter().map(|[literal]| literal).chain(circuit.latches.iter().map(|[_, next]| next));
    for (digit, &literal) in out.iter_mut().zip(asked) {
        *digit = b'0' + value(&values, literal) as u8;
    }
    Ok(length)
}

/// What a row's monitor is made of: its gates' operands, and the literals of failed, accept and pending.
struct Wired {
    gates: [[usize; 2]; 3],
    given: [usize; 3],
}

/// The table of docs/CIRCUIT.md: `z` is the row's activator, `y` its latch, `x` its gates.
fn wired(row: &Row, z: usize, y: usize, x: [usize; 3], active: impl Fn(usize) -> usize) -> Wired {
    let not = |literal: usize| literal + 1;
    let (a, b) = (active(row.n[0]), active(row.n[1]));
    let (p, rests) = (2 * row.n[0], [not(z), not(y)]);
    let (gates, given): (&[[usize; 2]], _) = match row.kind {
        Kind::True => (&[], [0, 1, 0]),
        Kind::False => (&[], [z, 1, 0]),
        Kind::Sig => (&[[z, not(p)]], [x[0], 1, 0]),
        Kind::Nsig => (&[[z, p]], [x[0], 1, 0]),
        Kind::Not => unreachable!("a normal form has no `not`"),
        Kind::And => (&[[a, b], [z, not(x[0])]], [x[1], 1, 0]),
        Kind::Or => (&[[not(a), not(b)], [z, x[0]]], [x[1], 1, 0]),
        Kind::Next => (&[[y, not(a)]], [x[0], 1, z]),
        Kind::Always => (&[rests, [not(x[0]), not(a)]], [x[1], 1, not(x[0])]),
        Kind::Ever => (&[rests, [not(x[0]), not(a)]], [0, not(x[1]), x[1]]),
        Kind::Weak => (&[rests, [not(x[0]), not(b)], [x[1], not(a)]], [x[2], 1, x[1]]),
        Kind::Until => (&[rests, [not(x[0]), not(b)], [x[1], not(a)]], [x[2], not(x[1]), x[1]]),
        Kind::Release => (&[rests, [not(x[0]), not(a)], [not(x[0]), not(b)]], [x[2], 1, x[1]]),
        Kind::Srelease => (&[rests, [not(x[0]), not(a)], [not(x[0]), not(b)]], [x[2], not(x[1]), x[1]]),
    };
    let gate = |j: usize| gates.get(j).copied().unwrap_or([0, 0]);
    Wired { gates: [gate(0), gate(1), gate(2)], given }
}

/// The circuit of a normal form's monitors as a file.
fn circuit_text(s: usize, rows: &[Row]) -> Vec<u8> {
    let n = rows.len();
    let active = |k: usize| 2 * (s + k);
    let latch = |k: usize| 2 * (s + n + k);
    let gate = |k: usize, j: usize| 2 * (s + 2 * n + 3 * (k - 1) + j);
    let all: Vec<Wired> =
        (1..).zip(rows).map(|(k, row)| wired(row, active(k), latch(k), [gate(k, 1), gate(k, 2), gate(k, 3)], active)).collect();
    let mut out = Vec::new();
    writeln!(out, "aag {} {} {n} {} {}", s + 5 * n, s + n, 3 * n, 3 * n).unwrap();
    for k in 1..=s + n {
        writeln!(out, "{}", 2 * k).unwrap();
    }
    for (k, row) in (1..).zip(&all) {
        writeln!(out, "{} {}", latch(k), row.given[2]).unwrap();
    }
    for which in 0..3 {
        for row in &all {
            writeln!(out, "{}", row.given[which]).unwrap();
        }
    }
    for (k, row) in (1..).zip(&all) {
        for (j, [a, b]) in (1..).zip(row.gates) {
            writeln!(out, "{} {a} {b}", gate(k, j)).unwrap();
        }
    }
    out
}

/// The circuit of the monitors of the rule in this file.
pub fn circuit_file(rule: &[u8]) -> Result<Vec<u8>, Refusal> {
    let rule = read_rule(rule).map_err(|fault| fault.of(1))?;
    Ok(circuit_text(rule.signals, &normal(&rule.rows, false)))
}
