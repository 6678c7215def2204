//! Activator sheets: reading, making, checking.

use crate::lines::{digits, Lines};
use crate::monitor::{Cycle, Given};
use crate::normal::normal_form;
use crate::refusal::Refusal;
use crate::rule::Rule;
use crate::take::{Take, MOST_CYCLES};
use crate::truth::{of_root, on_endless, strong};
use std::fmt;

/// The rows that a sheet file may have.
const MOST_ROWS: usize = 128;

/// A sheet: the activators of each row, a digit for each cycle.
#[derive(Clone, Debug, PartialEq, Eq)]
pub struct Sheet {
    pub rows: Vec<Vec<bool>>,
    pub cycles: usize,
}

/// What a check finds; rows count from 1, cycles from 0 along the endless take.
#[derive(Clone, Copy, Debug, PartialEq, Eq)]
pub enum Finding {
    /// The root is not set in cycle 0.
    Root,
    /// A monitor fails.
    Failed {
        /// The lowest row that fails in that cycle.
        row: usize,
        /// The earliest cycle in which one fails.
        cycle: usize,
    },
    /// The accept of a row stops returning.
    Starved {
        /// The lowest such row.
        row: usize,
    },
    /// A row is pending in the last cycle.
    Pending {
        /// The lowest such row.
        row: usize,
    },
    /// None of these.
    Passes,
}

/// What the program `check_sheet` prints.
impl fmt::Display for Finding {
    fn fmt(&self, f: &mut fmt::Formatter<'_>) -> fmt::Result {
        match self {
            Finding::Root => writeln!(f, "finding=root"),
            Finding::Failed { row, cycle } => writeln!(f, "finding=failed\nrow={row}\ncycle={cycle}"),
            Finding::Starved { row } => writeln!(f, "finding=starved\nrow={row}"),
            Finding::Pending { row } => writeln!(f, "finding=pending\nrow={row}"),
            Finding::Passes => writeln!(f, "finding=passes"),
        }
    }
}

impl Sheet {
    /// Reads a sheet file.
    pub fn read(bytes: &[u8]) -> Result<Sheet, Refusal> {
        let mut lines = Lines::of(3, bytes)?;
        let count = lines.count("rows", 1..=MOST_ROWS)?;
        let cycles = lines.count("cycles", 1..=MOST_CYCLES)?;
        let rows = (1..=count).map(|row| lines.parsed(&format!("z{row}"), |value| digits(value, cycles)));
        let rows = rows.collect::<Result<_, _>>()?;
        lines.end()?;
        Ok(Sheet { rows, cycles })
    }

    /// Whether the sheet has the rows of the normal form and the cycles of the take.
    pub fn fits(&self, normal: &Rule, take: &Take) -> bool {
        self.rows.len() == normal.rows.len() && self.cycles == take.cycles.len()
    }

    /// The activators of one cycle, by row.
    fn cycle(&self, cycle: usize) -> Vec<bool> {
        self.rows.iter().map(|row| row[cycle]).collect()
    }
}

/// The sheet that is made, as a file: where each row of the normal form is true. None if the rule is not satisfied or not kept.
pub fn made(rule: &Rule, take: &Take) -> Option<String> {
    let normal = normal_form(rule, false);
    let truth = match take.start {
        Some(start) => on_endless(&normal, take, start),
        None => strong(&normal, take),
    };
    of_root(&truth).then(|| {
        let digit = |active: &bool| if *active { '1' } else { '0' };
        let line = |row: usize| format!("z{}={}\n", row + 1, truth[row].iter().map(digit).collect::<String>());
        let lines: String = (0..truth.len()).map(line).collect();
        format!("format=1\nrows={}\ncycles={}\n{lines}", truth.len(), take.cycles.len())
    })
}

/// The check of a sheet that fits.
///
/// The monitors run through the stem and three rounds of the loop, and that is enough: the pending of a row depends on its own
/// pending one cycle earlier and on what is repeated in each round. So a round takes the pending with which it is entered to
/// that of the next round by one function f from a bit to a bit, the same in each round. Three applications of such a function
/// are one (f f f = f), so from the second round on the rounds alternate between two at most: the second and the third. What ever
/// fails, fails in the stem or in the first three rounds; what returns without end, returns in the second or the third.
pub fn checked(rule: &Rule, take: &Take, sheet: &Sheet) -> Finding {
    let normal = normal_form(rule, false);
    if !sheet.rows[normal.rows.len() - 1][0] {
        return Finding::Root;
    }
    let n = take.cycles.len();
    let round = take.start.map_or(0, |start| n - start);
    let given = run(&normal, take, sheet, n + 2 * round);
    if let Some((cycle, row)) = first_failure(&given) {
        return Finding::Failed { row, cycle };
    }
    let lowest = |fault: &dyn Fn(usize) -> bool| (0..normal.rows.len()).find(|row| fault(*row)).map(|row| row + 1);
    let finding = match take.start {
        Some(_) => lowest(&|row| given[n..].iter().all(|cycle| !cycle[row].accept)).map(|row| Finding::Starved { row }),
        None => lowest(&|row| given[n - 1][row].pending).map(|row| Finding::Pending { row }),
    };
    finding.unwrap_or(Finding::Passes)
}

/// What the monitors give in each of the first `cycles` cycles of the take, repeated with its sheet.
fn run(normal: &Rule, take: &Take, sheet: &Sheet, cycles: usize) -> Vec<Vec<Given>> {
    let n = take.cycles.len();
    let start = take.start.unwrap_or(0);
    let mut pendings = vec![false; normal.rows.len()];
    let mut all = Vec::new();
    for i in 0..cycles {
        let cycle = if i < n { i } else { start + (i - n) % (n - start) };
        let given = Cycle { activators: &sheet.cycle(cycle), signals: &take.cycles[cycle] }.monitors(normal, &pendings);
        pendings = given.iter().map(|row| row.pending).collect();
        all.push(given);
    }
    all
}

/// The earliest cycle in which a row fails, and the lowest such row, from 1.
fn first_failure(given: &[Vec<Given>]) -> Option<(usize, usize)> {
    let lowest = |rows: &Vec<Given>| rows.iter().position(|row| row.failed).map(|row| row + 1);
    given.iter().enumerate().find_map(|(cycle, rows)| lowest(rows).map(|row| (cycle, row)))
}
