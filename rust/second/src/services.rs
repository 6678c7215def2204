//! The services, from bytes to bytes. A refused one leaves its output alone.

use crate::circuit::Circuit;
use crate::judge::{either, looped, open, read_pair, text, Verdict};
use crate::lines::digit;
use crate::monitor::Cycle;
use crate::normal::normal_form;
use crate::refusal::Refusal;
use crate::rule::Rule;
use crate::run::Run;
use crate::sheet::{checked, made, Finding, Sheet};
use crate::take::{Take, MOST_CYCLES};
use crate::wiring::monitors;

/// Reads a rule file.
pub fn read_rule(rule: &[u8]) -> Result<(), Refusal> {
    Rule::read(rule).map(|_| ())
}

/// Reads a take file.
pub fn read_take(take: &[u8]) -> Result<(), Refusal> {
    Take::read(take).map(|_| ())
}

/// Reads a sheet file.
pub fn read_sheet(sheet: &[u8]) -> Result<(), Refusal> {
    Sheet::read(sheet).map(|_| ())
}

/// Reads a circuit file.
pub fn read_circuit(circuit: &[u8]) -> Result<(), Refusal> {
    Circuit::read(circuit).map(|_| ())
}

/// The bound on the length of a rule's normal form.
pub fn bound(rule: &[u8]) -> Result<usize, Refusal> {
    Ok(29 + 44 * Rule::read(rule)?.rows.len())
}

/// The rows of a rule's normal form.
pub fn rows(rule: &[u8]) -> Result<usize, Refusal> {
    Ok(normal_form(&Rule::read(rule)?, false).rows.len())
}

/// The length of the normal form of a rule or of its negation.
pub fn normal_length(rule: &[u8], negated: bool) -> Result<usize, Refusal> {
    Ok(normal_form(&Rule::read(rule)?, negated).to_string().len())
}

/// Writes the normal form of a rule or of its negation; its length.
pub fn normal(rule: &[u8], negated: bool, output: &mut [u8]) -> Result<usize, Refusal> {
    write(normal_form(&Rule::read(rule)?, negated).to_string().as_bytes(), output)
}

/// The verdict on either kind of take.
pub fn judge(rule: &[u8], take: &[u8]) -> Result<Verdict, Refusal> {
    let (rule, take) = read_pair(rule, take)?;
    Ok(either(&rule, &take))
}

/// The verdict on a looped take.
pub fn judge_looped(rule: &[u8], take: &[u8]) -> Result<Verdict, Refusal> {
    let (rule, take) = read_pair(rule, take)?;
    take.start.map(|start| looped(&rule, &take, start)).ok_or(Refusal::of_call(8))
}

/// The verdict on an open take.
pub fn judge_open(rule: &[u8], take: &[u8]) -> Result<Verdict, Refusal> {
    let (rule, take) = read_pair(rule, take)?;
    match take.start {
        Some(_) => Err(Refusal::of_call(8)),
        None => Ok(open(&rule, &take)),
    }
}

/// Writes what the program `judge` prints; its length.
pub fn judge_text(rule: &[u8], take: &[u8], output: &mut [u8]) -> Result<usize, Refusal> {
    write(text(rule, take).as_bytes(), output)
}

/// One cycle of a rule's monitors: writes failed, accept and pending by row; the number of digits.
pub fn step(
    rule: &[u8],
    pendings: &[u8],
    activators: &[u8],
    signals: &[u8],
    output: &mut [u8],
) -> Result<usize, Refusal> {
    let normal = normal_form(&Rule::read(rule)?, false);
    let (Some(pendings), Some(activators), Some(signals)) = (bits(pendings), bits(activators), bits(signals)) else {
        return Err(Refusal::of_call(2));
    };
    if signals.len() != normal.signals {
        return Err(Refusal::of_call(7));
    }
    if [&pendings, &activators].iter().any(|digits| digits.len() != normal.rows.len()) {
        return Err(Refusal::of_call(9));
    }
    let given = Cycle { activators: &activators, signals: &signals }.monitors(&normal, &pendings);
    let failed = given.iter().map(|row| row.failed);
    let accept = given.iter().map(|row| row.accept);
    let pending = given.iter().map(|row| row.pending);
    write(&digits(failed.chain(accept).chain(pending)), output)
}

/// Writes the circuit of a rule's monitors; its length.
pub fn circuit(rule: &[u8], output: &mut [u8]) -> Result<usize, Refusal> {
    write(monitors(&normal_form(&Rule::read(rule)?, false)).to_string().as_bytes(), output)
}

/// One cycle of a circuit: writes the outputs, then the next latches; the number of digits.
pub fn simulate(circuit: &[u8], inputs: &[u8], latches: &[u8], output: &mut [u8]) -> Result<usize, Refusal> {
    let circuit = Circuit::read(circuit)?;
    let (Some(inputs), Some(latches)) = (bits(inputs), bits(latches)) else {
        return Err(Refusal::of_call(2));
    };
    if inputs.len() != circuit.inputs.len() {
        return Err(Refusal::of_call(7));
    }
    if latches.len() != circuit.latches.len() {
        return Err(Refusal::of_call(9));
    }
    write(&digits(circuit.cycle(&inputs, &latches).into_iter()), output)
}

/// The length of the sheet of a rule and a take; 0 if there is none.
pub fn sheet_length(rule: &[u8], take: &[u8]) -> Result<usize, Refusal> {
    let (rule, take) = read_pair(rule, take)?;
    Ok(made(&rule, &take).map_or(0, |sheet| sheet.len()))
}

/// Writes the sheet of a rule and a take; its length, or none.
pub fn make_sheet(rule: &[u8], take: &[u8], output: &mut [u8]) -> Result<Option<usize>, Refusal> {
    let (rule, take) = read_pair(rule, take)?;
    made(&rule, &take).map(|sheet| write(sheet.as_bytes(), output)).transpose()
}

/// Writes the take file with so many rounds of the loop written out before the loop; its length, or none.
pub fn written_out(take: &[u8], rounds: u8, output: &mut [u8]) -> Result<Option<usize>, Refusal> {
    let longer = Take::read(take)?.written_out(rounds);
    longer.map(|take| write(take.to_string().as_bytes(), output)).transpose()
}

/// What a check of a sheet finds.
pub fn check_sheet(rule: &[u8], take: &[u8], sheet: &[u8]) -> Result<Finding, Refusal> {
    let rule = Rule::read(rule)?;
    let take = Take::read(take)?;
    let sheet = Sheet::read(sheet)?;
    if rule.signals != take.signals {
        return Err(Refusal::of_call(7));
    }
    if !sheet.fits(&normal_form(&rule, false), &take) {
        return Err(Refusal::of_call(9));
    }
    Ok(checked(&rule, &take, &sheet))
}

/// Begins a run: writes its bytes; their number.
pub fn run_begin(rule: &[u8], run: &mut [u8]) -> Result<usize, Refusal> {
    let begun = Run { rule: Rule::read(rule)?, cycles: vec![] };
    write(&begun.bytes(), run)
}

/// Hands the next cycle to a run.
pub fn run_cycle(run: &mut [u8], digits: &[u8]) -> Result<(), Refusal> {
    let mut longer = Run::read(run).ok_or(Refusal::of_call(4))?;
    let digits: String = digits.iter().copied().map(char::from).collect();
    if digits.chars().any(|character| digit(character).is_none()) {
        return Err(Refusal::of_call(2));
    }
    if digits.len() != longer.rule.signals {
        return Err(Refusal::of_call(7));
    }
    if longer.cycles.len() == MOST_CYCLES {
        return Err(Refusal::of_call(11));
    }
    longer.cycles.push(digits);
    run.copy_from_slice(&longer.bytes());
    Ok(())
}

/// The verdict on the cycles of a run so far: that on its rule file and its take file. With no cycle the take file is refused for it.
pub fn run_verdict(run: &[u8]) -> Result<Verdict, Refusal> {
    let run = Run::read(run).ok_or(Refusal::of_call(4))?;
    let verdict = judge_open(run.rule.to_string().as_bytes(), run.take().as_bytes());
    verdict.map_err(|refusal| Refusal::of_call(refusal.number))
}

/// What digits 0 and 1 say; nothing where another byte is among them.
fn bits(digits: &[u8]) -> Option<Vec<bool>> {
    digits.iter().map(|byte| digit(char::from(*byte))).collect()
}

/// The digits that say this.
fn digits(bits: impl Iterator<Item = bool>) -> Vec<u8> {
    bits.map(|bit| if bit { b'1' } else { b'0' }).collect()
}

/// Puts bytes at the front of the output; their number.
fn write(bytes: &[u8], output: &mut [u8]) -> Result<usize, Refusal> {
    let front = output.get_mut(..bytes.len()).ok_or(Refusal::of_call(10))?;
    front.copy_from_slice(bytes);
    Ok(bytes.len())
}
