// Checking sheets: all monitors run along the take, cycle by cycle.
use crate::monitors::monitor;
use crate::reading::Refusal;
use crate::rule::{normal, read_rule, Row};
use crate::sheets::{read_sheet, Sheet};
use crate::take::{go_together, read_take, Take};

/// What a check finds, with the row (from 1) and the cycle, counted along the endless take, where it has them.
#[derive(Clone, Copy, Debug, PartialEq)]
pub enum Finding {
    Root,
    Failed { row: usize, cycle: usize },
    Starved { row: usize },
    Pending { row: usize },
    Passes,
}

/// The finding for a sheet that has the rows of this normal form and the cycles of this take.
pub fn check(rows: &[Row], take: &Take, sheet: &Sheet) -> Finding {
    if !sheet.active(rows.len(), 0) {
        return Finding::Root;
    }
    let mut pending = vec![false; rows.len()];
    let mut cycle = 0;
    let mut from = 0;
    loop {
        let before = pending.clone();
        let mut accepted = vec![false; rows.len()];
        for i in from..take.cycles {
            for (k, row) in rows.iter().enumerate() {
                let said = monitor(row, sheet.active(k + 1, i), pending[k], |m| sheet.active(m, i), |s| take.signal(s, i));
                if said.failed {
                    return Finding::Failed { row: k + 1, cycle };
                }
                pending[k] = said.pending;
                accepted[k] |= said.accept;
            }
            cycle += 1;
        }
        let lowest = |found: &[bool], what: bool| found.iter().position(|&bit| bit == what).map(|k| k + 1);
        match take.loop_at {
            None => return lowest(&pending, true).map_or(Finding::Passes, |row| Finding::Pending { row }),
            // a round that ends as it began is repeated for ever
            Some(start) if from == start && pending == before => {
                return lowest(&accepted, false).map_or(Finding::Passes, |row| Finding::Starved { row });
            }
            Some(start) => from = start,
        }
    }
}

/// The finding for the rule, the take and the sheet in these files.
pub fn check_files(rule: &[u8], take: &[u8], sheet: &[u8]) -> Result<Finding, Refusal> {
    let rule = read_rule(rule).map_err(|fault| fault.of(1))?;
    let take = read_take(take).map_err(|fault| fault.of(2))?;
    let sheet = read_sheet(sheet).map_err(|fault| fault.of(3))?;
    go_together(&rule, &take)?;
    let rows = normal(&rule.rows, false);
    if sheet.rows != rows.len() || sheet.cycles != take.cycles {
        return Err(Refusal { reason: 9, file: 0, line: 0 });
    }
    Ok(check(&rows, &take, &sheet))
}
