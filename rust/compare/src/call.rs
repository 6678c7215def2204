//! A call of a service, and what it leaves.

use std::fmt;

/// The services, in the order of the table of counts.
#[derive(Clone, Copy, Debug, PartialEq, Eq, PartialOrd, Ord)]
pub enum Service {
    /// Reads a rule file.
    ReadRule,
    /// Reads a take file.
    ReadTake,
    /// Reads a sheet file.
    ReadSheet,
    /// The bound on the length of a normal form.
    Bound,
    /// The rows of a normal form.
    Rows,
    /// The length of the normal form of a rule or of its negation.
    NormalLength,
    /// Writes the normal form of a rule or of its negation.
    Normal,
    /// The verdict on a take of either kind.
    Judge,
    /// The verdict on a looped take.
    JudgeLooped,
    /// The verdict on an open take.
    JudgeOpen,
    /// Writes what the program `judge` prints.
    JudgeText,
    /// One cycle of the monitors.
    Step,
    /// The length of a sheet, 0 if there is none.
    SheetLength,
    /// Writes a sheet, if there is one.
    MakeSheet,
    /// The check of a sheet.
    CheckSheet,
    /// Begins a run.
    RunBegin,
    /// Hands the next cycle to a run.
    RunCycle,
    /// The verdict on a run so far.
    RunVerdict,
    /// Writes the circuit of a rule's monitors.
    Circuit,
    /// One cycle of a circuit.
    Simulate,
}

/// A call.
#[derive(Clone)]
pub struct Call {
    /// The service that is called.
    pub service: Service,
    /// Its inputs, in the order of the service's parameters.
    pub inputs: Vec<Vec<u8>>,
    /// Whether the negated rule is meant (`NormalLength` and `Normal` only).
    pub negated: bool,
    /// The output lent, as it is before the call; of `RunCycle` the run.
    pub output: Vec<u8>,
}

/// What a service says.
#[derive(Clone, Debug, PartialEq, Eq)]
pub enum Answer {
    /// A file or a cycle is accepted.
    Accepted,
    /// A bound, a number of rows, or the length of what was or is to be written.
    Number(usize),
    /// A verdict, by its word.
    Verdict(String),
    /// A finding, by its word, with row and cycle where it has them.
    Finding(&'static str, usize, usize),
    /// No sheet.
    None,
    /// A refusal: number, file, line.
    Refused(u8, u8, u32),
}

/// Everything that a call leaves.
#[derive(Clone, Debug, PartialEq, Eq)]
pub struct Outcome {
    /// The answer.
    pub answer: Answer,
    /// The inputs, which no call may change.
    pub inputs: Vec<Vec<u8>>,
    /// The whole output.
    pub output: Vec<u8>,
}

impl Service {
    /// All services.
    pub const ALL: [Service; 20] = [
        Service::ReadRule,
        Service::ReadTake,
        Service::ReadSheet,
        Service::Bound,
        Service::Rows,
        Service::NormalLength,
        Service::Normal,
        Service::Judge,
        Service::JudgeLooped,
        Service::JudgeOpen,
        Service::JudgeText,
        Service::Step,
        Service::SheetLength,
        Service::MakeSheet,
        Service::CheckSheet,
        Service::RunBegin,
        Service::RunCycle,
        Service::RunVerdict,
        Service::Circuit,
        Service::Simulate,
    ];

    /// How many of its inputs are files; they are the first.
    pub fn files(self) -> usize {
        match self {
            Service::RunCycle | Service::RunVerdict => 0,
            Service::Judge | Service::JudgeLooped | Service::JudgeOpen | Service::JudgeText => 2,
            Service::SheetLength | Service::MakeSheet => 2,
            Service::CheckSheet => 3,
            _ => 1,
        }
    }

    /// The service that says how much this one writes, of those that have one.
    pub fn length(self) -> Option<Service> {
        match self {
            Service::Normal => Some(Service::NormalLength),
            Service::MakeSheet => Some(Service::SheetLength),
            _ => None,
        }
    }

    /// A call of a service that writes nothing.
    pub fn of(self, inputs: &[&[u8]]) -> Call {
        self.writing(inputs, Vec::new())
    }

    /// A call of a service with a lent output.
    pub fn writing(self, inputs: &[&[u8]], output: Vec<u8>) -> Call {
        Call { service: self, inputs: inputs.iter().map(|input| input.to_vec()).collect(), negated: false, output }
    }
}

/// A short name, for the table of counts.
impl fmt::Display for Service {
    fn fmt(&self, f: &mut fmt::Formatter<'_>) -> fmt::Result {
        f.pad(match self {
            Service::ReadRule => "rule",
            Service::ReadTake => "take",
            Service::ReadSheet => "sheet",
            Service::Bound => "bound",
            Service::Rows => "rows",
            Service::NormalLength => "nlength",
            Service::Normal => "normal",
            Service::Judge => "judge",
            Service::JudgeLooped => "looped",
            Service::JudgeOpen => "open",
            Service::JudgeText => "text",
            Service::Step => "step",
            Service::SheetLength => "slength",
            Service::MakeSheet => "make",
            Service::CheckSheet => "check",
            Service::RunBegin => "begin",
            Service::RunCycle => "cycle",
            Service::RunVerdict => "verdict",
            Service::Circuit => "circuit",
            Service::Simulate => "simul",
        })
    }
}

impl fmt::Display for Call {
    fn fmt(&self, f: &mut fmt::Formatter<'_>) -> fmt::Result {
        writeln!(f, "{:?} with negated={} and an output of {} bytes", self.service, self.negated, self.output.len())?;
        self.inputs.iter().try_for_each(|input| writeln!(f, "  input b\"{}\"", input.escape_ascii()))
    }
}

impl fmt::Display for Outcome {
    fn fmt(&self, f: &mut fmt::Formatter<'_>) -> fmt::Result {
        writeln!(f, "{:?}", self.answer)?;
        self.inputs.iter().try_for_each(|input| writeln!(f, "  input b\"{}\"", input.escape_ascii()))?;
        write!(f, "  output b\"{}\"", self.output.escape_ascii())
    }
}
