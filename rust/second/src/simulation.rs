//! One cycle of a circuit, from what is asked for down to what is given.

use crate::circuit::Circuit;
use std::collections::BTreeMap;

/// The values of a cycle as far as they are known, and the operands of gates, both by the literals that are defined, which are even.
struct Values {
    known: BTreeMap<usize, bool>,
    operands: BTreeMap<usize, [usize; 2]>,
}

impl Circuit {
    /// The outputs of a cycle, then the next latches, from as many inputs and latches as the circuit has.
    pub fn cycle(&self, inputs: &[bool], latches: &[bool]) -> Vec<bool> {
        let given = self.inputs.iter().zip(inputs);
        let kept = self.latches.iter().map(|latch| &latch.literal).zip(latches);
        let known = given.chain(kept).map(|(literal, value)| (*literal, *value)).chain([(0, false)]).collect();
        let operands = self.gates.iter().map(|gate| (gate.literal, gate.operands)).collect();
        let mut values = Values { known, operands };
        let asked = self.outputs.iter().copied().chain(self.latches.iter().map(|latch| latch.next));
        asked.map(|literal| values.found(literal)).collect()
    }
}

impl Values {
    /// The value of a literal, if it is known: an odd literal is the one before it negated.
    fn of(&self, literal: usize) -> Option<bool> {
        let negated = literal % 2 == 1;
        self.known.get(&(literal - literal % 2)).map(|value| *value != negated)
    }

    /// The value of a literal. A gate waits for its operands, which may be gates that wait as well; they are lower, so that it ends.
    /// The waiting ones stand in a list and not in calls, since there may be thousands.
    fn found(&mut self, literal: usize) -> bool {
        let mut waiting = vec![literal];
        while let Some(&last) = waiting.last() {
            let own = last - last % 2;
            if self.known.contains_key(&own) {
                waiting.pop();
                continue;
            }
            let operands = self.operands[&own];
            match operands.map(|operand| self.of(operand)) {
                [Some(left), Some(right)] => drop(self.known.insert(own, left && right)),
                [None, _] => waiting.push(operands[0]),
                [_, None] => waiting.push(operands[1]),
            }
        }
        self.of(literal).expect("nothing waits any more")
    }
}

#[cfg(test)]
mod tests {
    use crate::cases::refused;
    use crate::simulate;

    const OR: &str = "aag 3 2 0 1 1\n2\n4\n7\n6 3 5\n";
    const TOGGLE: &str = "aag 1 0 1 2 0\n2 3\n2\n3\n";

    /// The report's toggle flip-flop with enable and reset, its gates numbered so that operands are lower; in falling order.
    const ENABLED: &str = "aag 7 2 1 2 4\n2\n4\n6 14\n6\n7\n14 4 12\n12 9 11\n10 3 7\n8 2 6\n";

    /// The digits that a cycle gives, and nothing behind them.
    fn cycle(circuit: &str, inputs: &str, latches: &str) -> String {
        let mut output = [b'#'; 64];
        let length = simulate(circuit.as_bytes(), inputs.as_bytes(), latches.as_bytes(), &mut output).unwrap();
        assert!(output[length..].iter().all(|byte| *byte == b'#'));
        String::from_utf8(output[..length].to_vec()).unwrap()
    }

    #[test]
    fn the_or_gate_is_one() {
        let given = ["00", "01", "10", "11"].map(|inputs| cycle(OR, inputs, ""));
        assert_eq!(given, ["0", "1", "1", "1"]);
    }

    #[test]
    fn the_flip_flop_toggles() {
        assert_eq!((cycle(TOGGLE, "", "0"), cycle(TOGGLE, "", "1")), ("011".to_string(), "100".to_string()));
    }

    /// The latch is turned where the first input is on, and goes to 0 where the second, the reset, is 0.
    #[test]
    fn gates_in_falling_order() {
        for (inputs, latch, next) in [("01", '0', '0'), ("01", '1', '1'), ("11", '0', '1'), ("11", '1', '0')] {
            let negated = if latch == '0' { '1' } else { '0' };
            assert_eq!(cycle(ENABLED, inputs, &latch.to_string()), format!("{latch}{negated}{next}"));
            let reset = inputs.replacen("1", "0", 2);
            assert_eq!(cycle(ENABLED, &reset, &latch.to_string()), format!("{latch}{negated}0"));
        }
    }

    #[test]
    fn constants_and_literals_in_any_order() {
        assert_eq!(cycle("aag 0 0 0 2 0\n0\n1\n", "", ""), "01");
        assert_eq!(cycle("aag 0 0 0 0 0\n", "", ""), "");
        let mixed = "aag 7 2 2 3 3\n14\n2\n6 15\n4 13\n0\n15\n11\n12 10 9\n10 4 7\n8 2 0\n";
        // input 14 is 1, input 2 is 0, latch 6 is 0, latch 4 is 1: so 10 is 1, 8 is 0, 12 is 1
        assert_eq!(cycle(mixed, "10", "01"), "00000");
        assert_eq!(cycle(mixed, "01", "11"), "01111");
        assert_eq!(cycle("aag 3 3 0 3 0\n6\n4\n2\n2\n4\n6\n", "100", ""), "001");
    }

    /// Each gate negates the one below it, and they come from the highest down: the longest list of waiting ones that fits a file.
    #[test]
    fn a_long_chain() {
        let gates = 5470;
        let lines: String = (2..gates + 2).rev().map(|own| format!("{} {} 1\n", 2 * own, 2 * own - 1)).collect();
        let chain = format!("aag {} 1 0 1 {gates}\n2\n{}\n{lines}", gates + 1, 2 * (gates + 1));
        assert!((60_000..=65_536).contains(&chain.len()));
        assert_eq!((cycle(&chain, "0", ""), cycle(&chain, "1", "")), ("0".to_string(), "1".to_string()));
    }

    #[test]
    fn order_of_refusals() {
        let call = |circuit: &str, inputs: &str, latches: &str, room: usize| {
            let mut output = vec![b'#'; room];
            let answer = simulate(circuit.as_bytes(), inputs.as_bytes(), latches.as_bytes(), &mut output);
            assert!(answer.is_ok() || output == vec![b'#'; room]);
            answer
        };
        assert_eq!(call(&"x".repeat(65_537), "x", "", 0), refused(1, 1, 0));
        assert_eq!(call("aag 1 0 1 2 0\n2 3\n2\n", "x", "", 0), refused(2, 1, 4));
        assert_eq!(call(ENABLED, "000", "x", 0), refused(2, 0, 0));
        assert_eq!(call(ENABLED, "00/", "00", 0), refused(2, 0, 0));
        assert_eq!(call(ENABLED, "000", "00", 0), refused(7, 0, 0));
        assert_eq!(call(ENABLED, "0", "0", 0), refused(7, 0, 0));
        assert_eq!(call(ENABLED, "00", "00", 0), refused(9, 0, 0));
        assert_eq!(call(ENABLED, "00", "", 0), refused(9, 0, 0));
        assert_eq!(call(ENABLED, "00", "0", 2), refused(10, 0, 0));
        assert_eq!(call(ENABLED, "00", "0", 3), Ok(3));
        assert_eq!(call(OR, "00", "", 0), refused(10, 0, 0));
        assert_eq!(call("aag 1 1 0 0 0\n2\n", "0", "", 0), Ok(0));
    }
}
