//! The circuit of a rule's monitors, as docs/CIRCUIT.md has it. Variables are counted along, from the inputs to the gates.

use crate::circuit::{Circuit, Gate, Latch};
use crate::rule::Row::{self, *};
use crate::rule::Rule;

/// The constants; they stand for what the monitors' table does not name.
const FALSE: usize = 0;
const TRUE: usize = 1;

/// The gates that every row has.
const GATES: usize = 3;

/// The literals that say what a monitor gives in a cycle.
#[derive(Clone, Copy)]
struct Given {
    failed: usize,
    accept: usize,
    pending: usize,
}

/// What is not named in the table.
const QUIET: Given = Given { failed: FALSE, accept: TRUE, pending: FALSE };

/// The wires of the cycle, by signal and by row, and the gates so far.
struct Wiring {
    variables: usize,
    signals: Vec<usize>,
    activators: Vec<usize>,
    latches: Vec<usize>,
    gates: Vec<Gate>,
}

/// The circuit of a normal form's monitors.
pub fn monitors(normal: &Rule) -> Circuit {
    let rows = normal.rows.len();
    let mut wiring = Wiring { variables: 0, signals: vec![], activators: vec![], latches: vec![], gates: vec![] };
    wiring.signals = wiring.literals(normal.signals);
    wiring.activators = wiring.literals(rows);
    wiring.latches = wiring.literals(rows);
    let given: Vec<Given> = (0..rows).map(|place| wiring.row(normal.rows[place], place)).collect();
    let failed = given.iter().map(|row| row.failed);
    let accept = given.iter().map(|row| row.accept);
    let pending = given.iter().map(|row| row.pending);
    let latches = wiring.latches.iter().zip(pending.clone());
    Circuit {
        inputs: [&wiring.signals[..], &wiring.activators].concat(),
        latches: latches.map(|(literal, next)| Latch { literal: *literal, next }).collect(),
        outputs: failed.chain(accept).chain(pending).collect(),
        gates: wiring.gates,
    }
}

impl Wiring {
    /// The literals of so many further variables.
    fn literals(&mut self, count: usize) -> Vec<usize> {
        let first = self.variables + 1;
        self.variables += count;
        (first..first + count).map(|variable| 2 * variable).collect()
    }

    /// The literal of another gate.
    fn and(&mut self, left: usize, right: usize) -> usize {
        let literal = self.literals(1)[0];
        self.gates.push(Gate { literal, operands: [left, right] });
        literal
    }

    /// What a row gives; its gates that are not needed are false.
    fn row(&mut self, row: Row, place: usize) -> Given {
        let before = self.gates.len();
        let given = self.monitor(row, self.activators[place], self.latches[place]);
        while self.gates.len() < before + GATES {
            self.and(FALSE, FALSE);
        }
        given
    }

    /// The monitor of a row with activator `z`, whose latch `y` has its pending one cycle earlier.
    fn monitor(&mut self, row: Row, z: usize, y: usize) -> Given {
        match row {
            True => QUIET,
            False => Given { failed: z, ..QUIET },
            Sig(s) => Given { failed: self.and(z, not(self.signals[s - 1])), ..QUIET },
            Nsig(s) => Given { failed: self.and(z, self.signals[s - 1]), ..QUIET },
            Not(_) => unreachable!("a normal form has no `not` row"),
            And(a, b) => {
                let both = self.and(self.active(a), self.active(b));
                Given { failed: self.and(z, not(both)), ..QUIET }
            }
            Or(a, b) => {
                let neither = self.and(not(self.active(a)), not(self.active(b)));
                Given { failed: self.and(z, neither), ..QUIET }
            }
            Next(a) => Given { failed: self.and(y, not(self.active(a))), pending: z, ..QUIET },
            Always(a) => {
                let g = self.either(z, y);
                Given { failed: self.and(g, not(self.active(a))), pending: g, ..QUIET }
            }
            Ever(a) => {
                let g = self.either(z, y);
                accepting(Given { pending: self.and(g, not(self.active(a))), ..QUIET })
            }
            Weak(a, b) => self.weak(z, y, a, b),
            Until(a, b) => accepting(self.weak(z, y, a, b)),
            Release(a, b) => self.release(z, y, a, b),
            Srelease(a, b) => accepting(self.release(z, y, a, b)),
        }
    }

    /// The monitor of weak, but for accept that of until as well.
    fn weak(&mut self, z: usize, y: usize, a: usize, b: usize) -> Given {
        let g = self.either(z, y);
        let pending = self.and(g, not(self.active(b)));
        Given { failed: self.and(pending, not(self.active(a))), pending, ..QUIET }
    }

    /// The monitor of release, but for accept that of srelease as well.
    fn release(&mut self, z: usize, y: usize, a: usize, b: usize) -> Given {
        let g = self.either(z, y);
        let pending = self.and(g, not(self.active(a)));
        Given { failed: self.and(g, not(self.active(b))), pending, ..QUIET }
    }

    /// Either of two literals.
    fn either(&mut self, left: usize, right: usize) -> usize {
        not(self.and(not(left), not(right)))
    }

    /// The activator of a row.
    fn active(&self, row: usize) -> usize {
        self.activators[row - 1]
    }
}

fn not(literal: usize) -> usize {
    literal ^ 1
}

/// The same with accept not pending.
fn accepting(given: Given) -> Given {
    Given { accept: not(given.pending), ..given }
}

#[cfg(test)]
mod tests {
    use crate::cases::{refused, rule, A};
    use crate::rule::WORDS;
    use crate::{circuit, rows, simulate, step};

    /// Bytes that do for any circuit.
    const MOST: usize = 9789;

    fn written(rule: &str) -> String {
        let mut output = vec![b'#'; MOST];
        let length = circuit(rule.as_bytes(), &mut output).unwrap();
        assert!(output[length..].iter().all(|byte| *byte == b'#'));
        String::from_utf8(output[..length].to_vec()).unwrap()
    }

    /// Rule A's file, from the table that says what each of its lines is.
    fn documented() -> String {
        let (_, section) = include_str!("../../../docs/CIRCUIT.md").split_once("## Rule A, line by line").unwrap();
        let line = |row: &str| {
            let [_, number, text, ..] = row.split('|').map(str::trim).collect::<Vec<_>>()[..] else { return None };
            Some((number.parse::<usize>().ok()?, text.strip_prefix('`')?.strip_suffix('`')?.to_string() + "\n"))
        };
        let (numbers, lines): (Vec<usize>, Vec<String>) = section.lines().filter_map(line).unzip();
        assert_eq!(numbers, (1..=43).collect::<Vec<_>>());
        lines.concat()
    }

    #[test]
    fn rule_a_is_wired_as_documented() {
        assert_eq!(written(&rule(2, &A)), documented());
    }

    /// One row of each word, with all that its line in the table says.
    #[test]
    fn rows_are_wired_as_in_the_table() {
        // the row is the third, of one signal: z is 8, Y is 18, its gates are 36, 38 and 40; A is 4 and B is 6
        for (row, given, gates) in [
            ("true", [0, 1, 0], "36 0 0 38 0 0 40 0 0"),
            ("false", [8, 1, 0], "36 0 0 38 0 0 40 0 0"),
            ("sig 1", [36, 1, 0], "36 8 3 38 0 0 40 0 0"),
            ("nsig 1", [36, 1, 0], "36 8 2 38 0 0 40 0 0"),
            ("and 1 2", [38, 1, 0], "36 4 6 38 8 37 40 0 0"),
            ("or 1 2", [38, 1, 0], "36 5 7 38 8 36 40 0 0"),
            ("next 1", [36, 1, 8], "36 18 5 38 0 0 40 0 0"),
            ("always 1", [38, 1, 37], "36 9 19 38 37 5 40 0 0"),
            ("ever 1", [0, 39, 38], "36 9 19 38 37 5 40 0 0"),
            ("weak 1 2", [40, 1, 38], "36 9 19 38 37 7 40 38 5"),
            ("until 1 2", [40, 39, 38], "36 9 19 38 37 7 40 38 5"),
            ("release 1 2", [40, 1, 38], "36 9 19 38 37 5 40 37 7"),
            ("srelease 1 2", [40, 39, 38], "36 9 19 38 37 5 40 37 7"),
        ] {
            // the rows behind it are there for it and for the first two to be reached
            let text = written(&rule(1, &["true", "true", row, "and 1 2", "and 3 4"]));
            let lines: Vec<&str> = text.lines().collect();
            assert_eq!(lines[0], "aag 26 6 5 15 15", "{row}");
            assert_eq!(lines[9], format!("18 {}", given[2]), "{row}");
            assert_eq!([lines[14], lines[19], lines[24]], given.map(|literal| literal.to_string()), "{row}");
            assert_eq!(lines[33..36].join(" "), gates, "{row}");
        }
    }

    #[test]
    fn refusals_of_the_rule_and_then_of_the_room() {
        let rule = rule(2, &A);
        let length = documented().len();
        let mut output = vec![b'#'; length];
        assert_eq!(circuit(b"", &mut []), refused(2, 1, 1));
        assert_eq!(circuit(rule.replace("sig 2", "sig 3").as_bytes(), &mut output), refused(5, 1, 6));
        assert_eq!(circuit(&[b'x'; 65_537], &mut output), refused(1, 1, 0));
        assert_eq!(circuit(rule.as_bytes(), &mut []), refused(10, 0, 0));
        assert_eq!(circuit(rule.as_bytes(), &mut output[1..]), refused(10, 0, 0));
        assert_eq!(output, vec![b'#'; length]);
        assert_eq!(circuit(rule.as_bytes(), &mut output), Ok(length));
    }

    /// The largest normal form: every row but the last is reached with both signs.
    #[test]
    fn the_largest_normal_form_fits() {
        let mut rows = vec!["sig 32".to_string()];
        rows.extend((1..62).map(|before| format!("weak {before} {before}")));
        rows.extend(["not 62".to_string(), "until 62 63".to_string()]);
        let rows: Vec<&str> = rows.iter().map(String::as_str).collect();
        let text = written(&rule(32, &rows));
        assert_eq!(crate::rows(rule(32, &rows).as_bytes()), Ok(125));
        assert!(text.starts_with("aag 657 157 125 375 375\n"), "{}", text.len());
        assert!(text.len() <= MOST, "{}", text.len());
    }

    /// Numbers that follow from one another.
    struct Numbers(u64);

    impl Numbers {
        fn below(&mut self, end: usize) -> usize {
            self.0 = self.0.wrapping_mul(6364136223846793005).wrapping_add(1442695040888963407);
            ((self.0 >> 33) % end as u64) as usize
        }

        fn digits(&mut self, count: usize) -> Vec<u8> {
            (0..count).map(|_| b'0' + self.below(2) as u8).collect()
        }

        fn rule(&mut self, signals: usize, rows: usize) -> String {
            let row = |numbers: &mut Numbers, own: usize| {
                let (word, count) = WORDS[if own == 1 { numbers.below(4) } else { numbers.below(WORDS.len()) }];
                let most = if word.ends_with("sig") { signals } else { own - 1 };
                (0..count).fold(word.to_string(), |row, _| format!("{row} {}", 1 + numbers.below(most)))
            };
            let rows: Vec<String> = (1..=rows).map(|own| row(self, own)).collect();
            rule(signals, &rows.iter().map(String::as_str).collect::<Vec<_>>())
        }
    }

    /// The circuit from latches at 0 is the step from a fresh start, in each of some cycles; and either takes any state as given.
    #[test]
    fn the_circuit_does_the_steps() {
        let mut numbers = Numbers(4);
        let mut words = std::collections::BTreeSet::new();
        for run in 0..1000 {
            let (signals, most) = (1 + numbers.below(4), if run % 50 == 0 { 64 } else { 10 });
            let count = 1 + numbers.below(most);
            let rule = numbers.rule(signals, count);
            let (text, rows) = (written(&rule), rows(rule.as_bytes()).unwrap());
            words.extend(rule.split(['=', ' ', '\n']).map(str::to_string));
            let mut state = vec![b'0'; rows];
            for cycle in 0..8 {
                let (activators, signals) = (numbers.digits(rows), numbers.digits(signals));
                let (mut stepped, mut simulated) = (vec![0; 3 * rows], vec![0; 4 * rows]);
                assert_eq!(step(rule.as_bytes(), &state, &activators, &signals, &mut stepped), Ok(3 * rows));
                let inputs = [signals, activators].concat();
                assert_eq!(simulate(text.as_bytes(), &inputs, &state, &mut simulated), Ok(4 * rows));
                assert_eq!(simulated, [&stepped[..], &stepped[2 * rows..]].concat(), "{rule}");
                state = if cycle == 6 { numbers.digits(rows) } else { stepped[2 * rows..].to_vec() };
            }
        }
        assert!(WORDS.iter().all(|(word, _)| words.contains(*word)));
    }
}
