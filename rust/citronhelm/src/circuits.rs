//! Circuits: a rule's monitors as one, and any of them simulated, one cycle at a time.

use crate::declarations;
use crate::refusal::{counted, Refusal};

/// The bytes that [`circuit`] needs at most.
pub const MOST_CIRCUIT: usize = 9789;

/// The bytes that [`simulate`] needs at most, whatever the circuit.
pub const MOST_SIMULATE: usize = 32_768;

/// Writes a rule's monitors as an ASCII AIGER file, and answers its length: at most [`MOST_CIRCUIT`]. With s signals and n =
/// [`rows`](crate::rows), its inputs are the signals and then each row's activator; there is a latch for each row, its pending one cycle
/// earlier; its outputs are failed, then accept, then pending, each by row. Which gates and literals it has stands in the project's
/// `docs/CIRCUIT.md`. Simulated from latches at 0 it gives in each cycle what [`step`](crate::step) does from a fresh start.
///
/// ```
/// use citronhelm::{circuit, Reason, MOST_CIRCUIT};
///
/// let rule = b"format=1\nsignals=2\nrows=6\n\
///     r1=sig 1\nr2=not 1\nr3=sig 2\nr4=ever 3\nr5=or 2 4\nr6=always 5\n";
/// let expected = b"aag 27 7 5 15 15\n2\n4\n6\n8\n10\n12\n14\n16 0\n18 0\n20 40\n22 0\n24 51\n\
///     26\n32\n0\n46\n52\n1\n1\n41\n1\n1\n0\n0\n40\n0\n51\n\
///     26 6 2\n28 0 0\n30 0 0\n32 8 5\n34 0 0\n36 0 0\n38 11 21\n40 39 9\n42 0 0\n\
///     44 7 11\n46 12 44\n48 0 0\n50 15 25\n52 51 13\n54 0 0\n";
/// let mut output = [0; MOST_CIRCUIT];
/// assert_eq!(circuit(rule, &mut output), Ok(expected.len()));
/// assert_eq!(&output[..expected.len()], expected);
/// assert_eq!(circuit(rule, &mut output[1..expected.len()]).unwrap_err().reason, Reason::OutputTooShort);
/// ```
pub fn circuit(rule: &[u8], output: &mut [u8]) -> Result<usize, Refusal> {
    counted(declarations::circuit(rule, output))
}

/// A rule's monitors as an ASCII AIGER file.
///
/// ```
/// let rule = b"format=1\nsignals=1\nrows=1\nr1=sig 1\n";
/// let circuit = b"aag 6 2 1 3 3\n2\n4\n6 0\n8\n1\n0\n8 4 3\n10 0 0\n12 0 0\n";
/// assert_eq!(citronhelm::circuit_vec(rule).unwrap(), circuit);
/// ```
pub fn circuit_vec(rule: &[u8]) -> Result<Vec<u8>, Refusal> {
    let mut output = [0; MOST_CIRCUIT];
    let length = circuit(rule, &mut output)?;
    Ok(output[..length].to_vec())
}

/// One cycle of the circuit in an ASCII AIGER file. Inputs and latches are digits, `b'0'` and `b'1'`, in the order of the file. Writes the
/// digits of the outputs, then of the next latches, and answers their number, which is that of outputs and latches together: at most
/// [`MOST_SIMULATE`].
///
/// Files are read without symbols and comments, up to 65,536 bytes; their numbers have at most five digits and no leading zeros, their
/// maximum index must be that of inputs, latches and gates together, and the operands of gates must have lower literals
/// (`docs/CIRCUIT.md`). A call takes some 313 KB of stack, more than all others; a thread of Rust has two megabytes, if it is given no
/// other size. Refusals behind the file's own, in this order:
/// [`WrongForm`](crate::Reason::WrongForm) with no file (another byte than a digit),
/// [`DifferentSignals`](crate::Reason::DifferentSignals) (another number of inputs),
/// [`DifferentSize`](crate::Reason::DifferentSize) (of latches), [`OutputTooShort`](crate::Reason::OutputTooShort).
///
/// ```
/// use citronhelm::{circuit_vec, simulate};
///
/// let rule = b"format=1\nsignals=2\nrows=6\n\
///     r1=sig 1\nr2=not 1\nr3=sig 2\nr4=ever 3\nr5=or 2 4\nr6=always 5\n";
/// let circuit = circuit_vec(rule)?;
/// let mut output = [0; 20];
/// // the signals are 10, the activators 00111
/// assert_eq!(simulate(&circuit, b"1000111", b"00000", &mut output), Ok(20));
/// let (outputs, latches) = output.split_at(15);
/// assert_eq!((outputs, latches), (&b"000001101100101"[..], &b"00101"[..]));
/// # Ok::<(), citronhelm::Refusal>(())
/// ```
///
/// What is refused of the file is told with its line:
///
/// ```
/// use citronhelm::{simulate, File, Reason, Refusal};
///
/// let twice = b"aag 2 2 0 0 0\n2\n2\n";
/// let refusal = Refusal { reason: Reason::WrongForm, file: Some(File::Circuit), line: 3 };
/// assert_eq!(simulate(twice, b"00", b"", &mut []), Err(refusal));
/// ```
pub fn simulate(circuit: &[u8], inputs: &[u8], latches: &[u8], output: &mut [u8]) -> Result<usize, Refusal> {
    counted(declarations::simulate(circuit, inputs, latches, output)).map_err(Refusal::of_circuit)
}

#[cfg(test)]
mod tests {
    use super::*;
    use crate::reading::rows;
    use crate::refusal::{File, Reason};
    use crate::steps::Monitors;

    const RULE: &[u8] = b"format=1\nsignals=3\nrows=16\nr1=sig 1\nr2=nsig 2\nr3=sig 3\nr4=and 1 2\nr5=or 2 3\nr6=next 4\n\
        r7=always 5\nr8=ever 3\nr9=weak 4 8\nr10=until 5 6\nr11=release 1 7\nr12=srelease 9 10\nr13=not 12\nr14=or 11 13\n\
        r15=and 12 14\nr16=always 15\n";
    const OR: &[u8] = b"aag 3 2 0 1 1\n2\n4\n7\n6 3 5\n";
    const TOGGLE: &[u8] = b"aag 1 0 1 2 0\n2 3\n2\n3\n";

    fn refused<T>(reason: Reason, file: Option<File>, line: u32) -> Result<T, Refusal> {
        Err(Refusal { reason, file, line })
    }

    #[test]
    fn the_reports_circuits() {
        let mut output = [b'#'; 4];
        for (inputs, or) in [(b"00", b'0'), (b"01", b'1'), (b"10", b'1'), (b"11", b'1')] {
            assert_eq!(simulate(OR, inputs, b"", &mut output), Ok(1));
            assert_eq!(output, [or, b'#', b'#', b'#']);
        }
        assert_eq!(simulate(TOGGLE, b"", b"0", &mut output), Ok(3));
        assert_eq!(&output, b"011#");
        assert_eq!(simulate(TOGGLE, b"", b"1", &mut output), Ok(3));
        assert_eq!(&output, b"100#");
    }

    /// The circuit goes on from the latches that it wrote, and the monitors beside it from their pendings.
    #[test]
    fn the_circuit_is_the_monitors() {
        let (circuit, rows) = (circuit_vec(RULE).unwrap(), rows(RULE).unwrap());
        let mut monitors = Monitors::new(RULE).unwrap();
        let mut latches = vec![b'0'; rows];
        let mut number = 1u64;
        let mut digit = || {
            number = number.wrapping_mul(6364136223846793005).wrapping_add(1442695040888963407);
            b'0' + (number >> 63) as u8
        };
        for _ in 0..200 {
            let inputs: Vec<u8> = (0..3 + rows).map(|_| digit()).collect();
            let mut output = vec![0; 4 * rows];
            assert_eq!(simulate(&circuit, &inputs, &latches, &mut output), Ok(4 * rows));
            let stepped = monitors.step(&inputs[3..], &inputs[..3]).unwrap();
            assert_eq!(output, [stepped.failed, stepped.accept, stepped.pending, stepped.pending].concat());
            latches.copy_from_slice(&output[3 * rows..]);
        }
    }

    #[test]
    fn refusals_of_the_call_have_no_file() {
        let mut output = [b'#'; 3];
        assert_eq!(simulate(OR, b"0x0", b"0", &mut []), refused(Reason::WrongForm, None, 0));
        assert_eq!(simulate(OR, b"000", b"0", &mut []), refused(Reason::DifferentSignals, None, 0));
        assert_eq!(simulate(OR, b"00", b"0", &mut []), refused(Reason::DifferentSize, None, 0));
        assert_eq!(simulate(TOGGLE, b"", b"0", &mut output[..2]), refused(Reason::OutputTooShort, None, 0));
        assert_eq!(output, [b'#'; 3]);
    }

    #[test]
    fn files_are_told_apart() {
        assert_eq!(simulate(RULE, b"", b"", &mut []), refused(Reason::WrongForm, Some(File::Circuit), 1));
        assert_eq!(simulate(&[b'x'; 65_537], b"", b"", &mut []), refused(Reason::TooLong, Some(File::Circuit), 0));
        assert_eq!(circuit(OR, &mut []), refused(Reason::WrongForm, Some(File::Rule), 1));
        assert_eq!(File::Circuit.number(), File::Rule.number());
    }
}
