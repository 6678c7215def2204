//! Runs: a take judged while it is recorded.

use crate::declarations;
use crate::refusal::{answered, counted, Reason, Refusal};
use crate::verdict::Verdict;

/// The bytes that a run has.
pub const RUN: usize = 1220;

/// Begins a run with a rule: writes its state with no cycle into the bytes lent and answers their number, [`RUN`]. Refusals behind the
/// rule's own: [`OutputTooShort`](Reason::OutputTooShort). [`Run`] keeps these bytes itself.
///
/// ```
/// use citronhelm::{run_begin, run_cycle, run_verdict, Verdict, RUN};
///
/// let rule = b"format=1\nsignals=1\nrows=2\nr1=sig 1\nr2=always 1\n";
/// let mut run = [0; RUN];
/// assert_eq!(run_begin(rule, &mut run), Ok(RUN));
/// run_cycle(&mut run, b"1")?;
/// assert_eq!(run_verdict(&run), Ok(Verdict::Open));
/// # Ok::<(), citronhelm::Refusal>(())
/// ```
pub fn run_begin(rule: &[u8], run: &mut [u8]) -> Result<usize, Refusal> {
    counted(declarations::run_begin(rule, run))
}

/// Hands the next cycle to the run in these bytes, as the digits `b'0'` and `b'1'` of its signals. Refused, in this order, for bytes that
/// no calls lead to, for another byte than a digit, for another number of digits than signals, and where the run has 256 cycles
/// already; then no byte is altered.
pub fn run_cycle(run: &mut [u8], digits: &[u8]) -> Result<(), Refusal> {
    answered(declarations::run_cycle(run, digits)).map(|_| ())
}

/// The verdict on the cycles so far of the run in these bytes. Refused for bytes that no calls lead to, and where there is no cycle.
pub fn run_verdict(run: &[u8]) -> Result<Verdict, Refusal> {
    answered(declarations::run_verdict(run)).map(Verdict::numbered)
}

/// A take judged while it is recorded: begun with a rule, handed one cycle after another, and asked for the verdict between any two.
///
/// Below, the rule says: always, when signal 1 is on, signal 2 is in the next cycle.
///
/// ```
/// use citronhelm::{Reason, Run, Verdict};
///
/// let rule = b"format=1\nsignals=2\nrows=6\n\
///     r1=sig 1\nr2=not 1\nr3=sig 2\nr4=next 3\nr5=or 2 4\nr6=always 5\n";
/// let mut run = Run::begin(rule)?;
/// assert_eq!(run.verdict().unwrap_err().reason, Reason::CountOutOfRange); // no cycle yet
/// run.cycle(b"10")?;
/// assert_eq!(run.verdict(), Ok(Verdict::Open));
/// let before = run.clone();
/// assert_eq!(run.cycle(b"0x").unwrap_err().reason, Reason::WrongForm);
/// assert_eq!(run.cycle(b"000").unwrap_err().reason, Reason::DifferentSignals);
/// assert_eq!(run, before); // refused: no cycle, and the run goes on
/// run.cycle(b"00")?;
/// assert_eq!(run.verdict(), Ok(Verdict::Broken));
/// # Ok::<(), citronhelm::Refusal>(())
/// ```
///
/// Runs are equal where their rules and cycles are. A run's bytes may be stored and sent; those that no calls lead to do not come back in,
/// so that every `Run` is one that calls lead to.
///
/// ```
/// use citronhelm::{Reason, Run};
///
/// let mut run = Run::begin(b"format=1\nsignals=1\nrows=2\nr1=sig 1\nr2=always 1\n")?;
/// run.cycle(b"1")?;
/// let mut stored = run.as_bytes().to_vec();
/// assert_eq!(Run::from_bytes(&stored), Ok(run));
/// stored[0] ^= 2; // the digit of a cycle that was never handed over
/// assert_eq!(Run::from_bytes(&stored).unwrap_err().reason, Reason::CountOutOfRange);
/// # Ok::<(), citronhelm::Refusal>(())
/// ```
#[derive(Clone, Debug, PartialEq, Eq, Hash)]
pub struct Run {
    /// A state that calls lead to.
    state: [u8; RUN],
}

impl Run {
    /// A run with no cycle, or the rule's refusal.
    pub fn begin(rule: &[u8]) -> Result<Run, Refusal> {
        let mut state = [0; RUN];
        run_begin(rule, &mut state)?;
        Ok(Run { state })
    }

    /// The next cycle, as the digits `b'0'` and `b'1'` of its signals, signal 1 first. Refused, in this order, for another byte than these,
    /// for another number of digits than signals, and where there are 256 cycles already. A refused one is no cycle: it changes
    /// nothing, and another one can follow.
    pub fn cycle(&mut self, digits: &[u8]) -> Result<(), Refusal> {
        run_cycle(&mut self.state, digits)
    }

    /// The verdict on the cycles so far: that of [`judge_open`](crate::judge_open) on the rule and the take file of these cycles, so
    /// kept, broken or open. Refused only where there is no cycle yet.
    pub fn verdict(&self) -> Result<Verdict, Refusal> {
        run_verdict(&self.state)
    }

    /// The state, to be stored or sent. What its bytes mean is promised for this version of the library only.
    pub fn as_bytes(&self) -> &[u8; RUN] {
        &self.state
    }

    /// The run with this state; bytes that no calls lead to are refused.
    pub fn from_bytes(bytes: &[u8]) -> Result<Run, Refusal> {
        let no_state = Refusal { reason: Reason::CountOutOfRange, file: None, line: 0 };
        let mut state: [u8; RUN] = bytes.try_into().map_err(|_| no_state)?;
        // a cycle with a byte that is no digit is always refused: for the state if that is at fault, since that comes first
        match run_cycle(&mut state, b"-") {
            Err(refusal) if refusal.reason == Reason::CountOutOfRange => Err(refusal),
            _ => Ok(Run { state }),
        }
    }
}

#[cfg(test)]
mod tests {
    use super::*;
    use crate::judging::judge_open;

    const RULE: &[u8] =
        b"format=1\nsignals=2\nrows=6\nr1=sig 1\nr2=not 1\nr3=sig 2\nr4=next 3\nr5=or 2 4\nr6=always 5\n";

    fn refused<T>(reason: Reason) -> Result<T, Refusal> {
        Err(Refusal { reason, file: None, line: 0 })
    }

    #[test]
    fn a_run_has_256_cycles() {
        let mut run = Run::begin(RULE).unwrap();
        let mut lines = String::new();
        for cycle in 0..256 {
            let digits = if cycle % 3 == 1 { "01" } else { "00" };
            assert_eq!(run.cycle(digits.as_bytes()), Ok(()));
            lines += &format!("c{cycle}={digits}\n");
            let take = format!("format=1\nsignals=2\ncycles={}\nloop=none\n{lines}", cycle + 1);
            assert_eq!(run.verdict(), judge_open(RULE, take.as_bytes()));
        }
        let full = run.clone();
        assert_eq!(run.cycle(b"0x"), refused(Reason::WrongForm));
        assert_eq!(run.cycle(b"0"), refused(Reason::DifferentSignals));
        assert_eq!(run.cycle(b"00"), refused(Reason::TooManyCycles));
        assert_eq!(run, full);
        assert_eq!(run.verdict(), Ok(Verdict::Open));
    }

    #[test]
    fn a_refused_rule_has_no_run() {
        let refused = b"format=1\nsignals=1\nrows=2\nr1=sig 1\nr2=always 2\n";
        assert_eq!(Run::begin(refused).unwrap_err(), crate::read_rule(refused).unwrap_err());
        let mut lent = [7; RUN];
        assert!(run_begin(refused, &mut lent).is_err() && lent == [7; RUN]);
    }

    #[test]
    fn a_run_needs_its_bytes() {
        let mut lent = [7; RUN + 1];
        assert_eq!(run_begin(RULE, &mut lent[..RUN - 1]), refused(Reason::OutputTooShort));
        assert_eq!(lent, [7; RUN + 1]);
        assert_eq!(run_begin(RULE, &mut lent), Ok(RUN));
        assert_eq!((&lent[..RUN], lent[RUN]), (&Run::begin(RULE).unwrap().as_bytes()[..], 7));
        assert_eq!(run_cycle(&mut lent, b"00"), refused(Reason::CountOutOfRange));
        assert_eq!(run_verdict(&lent[..RUN - 1]), refused(Reason::CountOutOfRange));
    }

    #[test]
    fn bytes_that_no_calls_lead_to_are_no_run() {
        let mut run = Run::begin(RULE).unwrap();
        run.cycle(b"10").unwrap();
        assert_eq!(Run::from_bytes(run.as_bytes()), Ok(run.clone()));
        for length in [0, RUN - 1, RUN + 1] {
            let mut bytes = run.as_bytes().to_vec();
            bytes.resize(length, 0);
            assert_eq!(Run::from_bytes(&bytes), refused(Reason::CountOutOfRange));
        }
        assert_eq!(Run::from_bytes(&[0; RUN]), refused(Reason::CountOutOfRange));
        assert_eq!(Run::from_bytes(&[255; RUN]), refused(Reason::CountOutOfRange));
    }
}
