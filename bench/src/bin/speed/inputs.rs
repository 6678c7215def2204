//! Rules, takes and sheets of full size, and of a half and a quarter of it.
//!
//! A rule has 32 signals. A quarter of its rows are signals; the others go through all operators, read every row before them, and are
//! reached under both signs, so that 64 rows give the 125 of the largest normal form. The loop begins in the middle. Nothing ends
//! early: the last rows ask for something again and again, which the loop brings and no open take settles, so that there both
//! normal forms are gone through; and 70 of the 125 rows are true at one cycle of the looped take and false at another.
use crate::services::{Call, Service};
use plain::{checking, circuits, making, monitors, rule, run};

const SIGNALS: usize = 32;
const WORDS: [&str; 9] = ["and", "next", "release", "or", "weak", "ever", "srelease", "always", "until"];
const UNARY: [&str; 3] = ["next", "ever", "always"];
/// The step that is measured: the monitors have run along the take up to it.
const STEP: usize = 20;

/// 01's rule A, and a cycle of its circuit: signals, then activators.
pub const RULE_A: &[u8] = b"format=1\nsignals=2\nrows=6\nr1=sig 1\nr2=not 1\nr3=sig 2\nr4=ever 3\nr5=or 2 4\nr6=always 5\n";
const CYCLE_OF_A: &[u8] = b"1000111";

/// How many rows the rule has and how many cycles the take.
#[derive(Clone, Copy, Debug, PartialEq)]
pub struct Size {
    pub rows: usize,
    pub cycles: usize,
}

/// What the services are given. `other` is the rule with 31 signals: it is read to its end, and then refused beside a take with 32.
/// `runs` are the states before the first cycle, the middle one and the last, `whole_run` that after all. The padded files are the rule,
/// the looped take and the sheet. The circuit is that of the rule's monitors, its inputs and latches those of the step.
#[derive(Clone)]
pub struct Inputs {
    pub rule: Vec<u8>,
    pub other: Vec<u8>,
    pub looped: Vec<u8>,
    pub open: Vec<u8>,
    pub sheet: Vec<u8>,
    pub padded_rule: Vec<u8>,
    pub padded_take: Vec<u8>,
    pub padded_sheet: Vec<u8>,
    pub pendings: Vec<u8>,
    pub activators: Vec<u8>,
    pub signals: Vec<u8>,
    pub runs: [Vec<u8>; 3],
    pub whole_run: Vec<u8>,
    pub circuit: Vec<u8>,
    pub inputs: Vec<u8>,
    pub circuit_of_a: Vec<u8>,
}

impl Inputs {
    pub fn new(size: Size) -> Inputs {
        let cycles = take_cycles(size.cycles);
        let text = rule_text(&rule_rows(size.rows));
        let other = text.replace("signals=32\n", "signals=31\n").replace("sig 32\n", "sig 31\n").into_bytes();
        let (rule, looped) = (text.into_bytes(), take_text(&cycles, &(size.cycles / 2).to_string()));
        let sheet = making::make_files(&rule, &looped).unwrap().expect("the rule holds").into_bytes();
        let found = checking::check_files(&rule, &looped, &sheet);
        assert_eq!(found, Ok(checking::Finding::Passes));
        let (pendings, activators) = stepped(&rule, &cycles, &sheet);
        let open = take_text(&cycles, "none");
        let runs = [0, size.cycles / 2, size.cycles - 1].map(|before| run_after(&rule, &cycles[..before]));
        let (whole_run, signals) = (run_after(&rule, &cycles), cycles[STEP].clone().into_bytes());
        let [padded_rule, padded_take, padded_sheet] = [&rule, &looped, &sheet].map(|file| padded(file));
        let (circuit, circuit_of_a) = (circuits::circuit_file(&rule).unwrap(), circuits::circuit_file(RULE_A).unwrap());
        let inputs = [&signals[..], &activators].concat();
        Inputs {
            rule,
            other,
            looped,
            open,
            sheet,
            padded_rule,
            padded_take,
            padded_sheet,
            pendings,
            activators,
            signals,
            runs,
            whole_run,
            circuit,
            inputs,
            circuit_of_a,
        }
    }

    /// The circuit that is simulated, its inputs, of which one is missing where it is only read, and its latches.
    pub fn cycle(&self, call: Call) -> [&[u8]; 3] {
        let [circuit, inputs, latches] = match call.service {
            Service::SimulateOfA => [&self.circuit_of_a, CYCLE_OF_A, b"00000"],
            _ => [&self.circuit[..], &self.inputs, &self.pendings],
        };
        [circuit, if call.only_read { &inputs[1..] } else { inputs }, latches]
    }

    /// The run that a service hands a cycle to.
    pub fn run(&self, service: Service) -> Option<&[u8]> {
        let [first, middle, last] = &self.runs;
        match service {
            Service::FirstCycle => Some(first),
            Service::MiddleCycle => Some(middle),
            Service::LastCycle => Some(last),
            _ => None,
        }
    }
}

fn run_after(rule: &[u8], cycles: &[String]) -> Vec<u8> {
    let mut state = vec![0; run::RUN];
    run::run_begin(rule, &mut state).unwrap();
    cycles.iter().for_each(|digits| run::run_cycle(&mut state, digits.as_bytes()).unwrap());
    state
}

fn rule_rows(rows: usize) -> Vec<String> {
    let leaves = rows / 4;
    let leaf = |i: usize| format!("{} {}", ["nsig", "sig"][i % 2], 1 + i * (SIGNALS - 1) / (leaves - 1));
    let mut table: Vec<String> = (0..leaves).map(leaf).collect();
    let mut unread: Vec<usize> = (1..=leaves).collect();
    let operators = rows - leaves - 4;
    for j in 0..operators {
        let word = WORDS[j % WORDS.len()];
        let (a, mut b) = (unread.remove(0), 1 + (5 * j + 3) % leaves);
        // one row is left unread at the end
        if !UNARY.contains(&word) && (unread.len() * operators) as isize > (leaves as isize - 1) * (operators as isize - j as isize - 2) {
            b = if unread.is_empty() { b } else { unread.remove(0) };
        }
        table.push(if UNARY.contains(&word) { format!("{word} {a}") } else { format!("{word} {b} {a}") });
        unread.push(table.len());
    }
    assert_eq!(unread.len(), 1);
    table.extend([
        format!("ever {}", rows - 4),
        format!("always {}", rows - 3),
        format!("not {}", rows - 2),
        format!("release {} {}", rows - 1, rows - 2),
    ]);
    table
}

/// The rule file of these rows.
pub fn rule_of(signals: usize, rows: &[String]) -> String {
    let lines: String = (1..).zip(rows).map(|(k, row)| format!("r{k}={row}\n")).collect();
    format!("format=1\nsignals={signals}\nrows={}\n{lines}", rows.len())
}

fn rule_text(rows: &[String]) -> String {
    let text = rule_of(SIGNALS, rows);
    let form = rule::normal(&rule::read_rule(text.as_bytes()).unwrap().rows, false);
    assert_eq!(form.len(), 2 * rows.len() - 3);
    text
}

/// A digit for each signal in each cycle: most signals are mostly on, every fourth mostly off.
fn take_cycles(count: usize) -> Vec<String> {
    let mut random = Random(1);
    let mut digit = |s: usize| if random.below(100) < if s.is_multiple_of(4) { 15 } else { 85 } { '1' } else { '0' };
    (0..count).map(|_| (0..SIGNALS).map(&mut digit).collect()).collect()
}

/// The take file of these cycles; `start` is the value of its loop line.
pub fn take_text(cycles: &[String], start: &str) -> Vec<u8> {
    let lines: String = cycles.iter().enumerate().map(|(i, digits)| format!("c{i}={digits}\n")).collect();
    format!("format=1\nsignals={}\ncycles={}\nloop={start}\n{lines}", cycles[0].len(), cycles.len()).into_bytes()
}

/// Numbers without pattern, the same from the same seed.
pub struct Random(pub u64);

impl Random {
    /// A number from 0 up to but without `end`.
    pub fn below(&mut self, end: usize) -> usize {
        self.0 = self.0.wrapping_mul(6364136223846793005).wrapping_add(1442695040888963407);
        (self.0 >> 33) as usize % end
    }
}

/// The file with the numbers of its values in five digits.
fn padded(file: &[u8]) -> Vec<u8> {
    std::str::from_utf8(file).unwrap().lines().map(padded_line).collect::<String>().into_bytes()
}

fn padded_line(line: &str) -> String {
    let (key, value) = line.split_once('=').unwrap();
    // the digits of a cycle or of a sheet's row are no number
    if key.starts_with(['c', 'z']) && key != "cycles" {
        return format!("{line}\n");
    }
    let is_number = |word: &str| word.bytes().all(|b| b.is_ascii_digit());
    let words: Vec<String> = value.split(' ').map(|word| if is_number(word) { format!("{word:0>5}") } else { word.to_string() }).collect();
    format!("{key}={}\n", words.join(" "))
}

/// The pendings before the measured step and the activators at it.
fn stepped(rule: &[u8], cycles: &[String], sheet: &[u8]) -> (Vec<u8>, Vec<u8>) {
    let lines: Vec<&[u8]> = sheet.split(|&b| b == b'\n').filter(|line| line.starts_with(b"z")).collect();
    let column = |i: usize| -> Vec<u8> { lines.iter().map(|line| line[line.len() - cycles.len() + i]).collect() };
    let mut pendings = vec![b'0'; lines.len()];
    let mut out = vec![0; 3 * lines.len()];
    for (i, signals) in cycles[..STEP].iter().enumerate() {
        monitors::step(rule, &pendings, &column(i), signals.as_bytes(), &mut out).unwrap();
        pendings.copy_from_slice(&out[2 * lines.len()..]);
    }
    (pendings, column(STEP))
}
