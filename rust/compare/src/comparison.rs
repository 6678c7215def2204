//! One call made twice, and the difference if there is one.

use crate::call::{Answer, Call, Outcome};

/// An implementation of all services.
pub type Implementation = fn(&Call) -> Outcome;

/// Makes a call by both implementations. Their outcome if it is the same: answer, inputs and every byte of the output. The
/// difference, with all that repeating the call needs, if it is not.
pub fn same(call: &Call, proved: Implementation, other: Implementation) -> Result<Outcome, String> {
    let (left, right) = (proved(call), other(call));
    if left == right {
        Ok(left)
    } else {
        let lent = call.output.escape_ascii();
        Err(format!("different: {call}  lent b\"{lent}\"\nproved: {left}\nother: {right}"))
    }
}

/// Holds the answer of a service that writes to the length that an implementation says beforehand: 10 where less is lent, and else that
/// length; no sheet where it is 0; and the same refusal where it is one. A service without such a length is held to nothing.
pub fn hold_to_length(call: &Call, answer: &Answer, implementation: Implementation) -> Result<(), String> {
    let Some(service) = call.service.length() else { return Ok(()) };
    let length = implementation(&Call { service, ..call.clone() }).answer;
    let due = match length {
        Answer::Number(0) => Answer::None,
        Answer::Number(length) if call.output.len() < length => Answer::Refused(10, 0, 0),
        _ => length.clone(),
    };
    match *answer == due {
        true => Ok(()),
        false => Err(format!("not of its length: {call}{service:?}: {length:?}\nanswer: {answer:?}")),
    }
}

#[cfg(test)]
mod tests {
    use super::*;
    use crate::call::Service;
    use crate::implementations::{by_proved, by_second};
    use crate::trials::written;

    const RULE: &[u8] = b"format=1\nsignals=1\nrows=2\nr1=sig 1\nr2=always 1\n";
    const TAKE: &[u8] = b"format=1\nsignals=1\ncycles=1\nloop=0\nc0=1\n";

    fn wrong_answer(call: &Call) -> Outcome {
        Outcome { answer: Answer::Verdict("breaks".to_string()), ..by_proved(call) }
    }

    fn other_line(call: &Call) -> Outcome {
        Outcome { answer: Answer::Refused(2, 2, 2), ..by_proved(call) }
    }

    fn byte_behind(call: &Call) -> Outcome {
        let mut outcome = by_proved(call);
        *outcome.output.last_mut().unwrap() ^= 1;
        outcome
    }

    fn altered_input(call: &Call) -> Outcome {
        let mut outcome = by_proved(call);
        outcome.inputs[0][0] ^= 1;
        outcome
    }

    #[test]
    fn equal_outcomes_are_the_same() {
        let call = Service::Judge.of(&[RULE, TAKE]);
        assert_eq!(same(&call, by_proved, by_second).unwrap().answer, Answer::Verdict("holds".to_string()));
    }

    #[test]
    fn differences_are_told() {
        let judge = Service::Judge.of(&[RULE, TAKE]);
        let message = same(&judge, wrong_answer, by_second).unwrap_err();
        assert!(message.contains("Judge") && message.contains(r"c0=1\n") && message.contains("breaks"));
        assert!(same(&Service::Judge.of(&[RULE, b""]), other_line, by_second).is_err());
        let normal = Service::Normal.writing(&[RULE], vec![7; 100]);
        assert!(same(&normal, by_proved, by_second).is_ok());
        assert!(same(&normal, byte_behind, by_second).is_err());
        assert!(same(&normal, altered_input, by_second).is_err());
    }

    /// Lengths that are so many bytes off.
    fn off_by(call: &Call, bytes: isize) -> Outcome {
        let outcome = by_proved(call);
        match (call.service, &outcome.answer) {
            (Service::NormalLength | Service::SheetLength, Answer::Number(length)) => {
                Outcome { answer: Answer::Number(length.wrapping_add_signed(bytes)), ..outcome }
            }
            _ => outcome,
        }
    }

    #[test]
    fn wrong_lengths_are_told() {
        let of = |call: &Call, implementation: Implementation| {
            hold_to_length(call, &by_proved(call).answer, implementation).is_ok()
        };
        let [shorter, longer]: [Implementation; 2] = [|call| off_by(call, -1), |call| off_by(call, 1)];
        for call in [Service::Normal.of(&[RULE]), Service::MakeSheet.of(&[RULE, TAKE])] {
            let length = written(&call).unwrap().len();
            for (lent, as_shorter, as_longer) in [
                (length - 2, true, true),
                (length - 1, false, true),
                (length, false, false),
                (length + 1, false, false),
            ] {
                let call = Call { output: vec![7; lent], ..call.clone() };
                let held = [of(&call, by_proved), of(&call, shorter), of(&call, longer)];
                assert_eq!(held, [true, as_shorter, as_longer], "{call}");
            }
        }
        let none = Service::MakeSheet.of(&[RULE, &[&TAKE[..TAKE.len() - 2], b"0\n"].concat()]);
        assert_eq!([of(&none, by_proved), of(&none, longer)], [true, false]);
        assert!(of(&Service::Normal.of(&[b""]), shorter) && of(&Service::Judge.of(&[RULE, TAKE]), shorter));
    }
}
