// Making sheets, and their length.
use crate::reading::{number_length, Refusal};
use crate::rule::{normal, Rule};
use crate::take::{read_pair, Take};
use crate::truth::truths;

/// The activators of the sheet, a line of cycles for each row, one behind the other; none where the rule is not satisfied or not kept.
pub fn make(rule: &Rule, take: &Take) -> Option<Vec<bool>> {
    let rows = normal(&rule.rows, false);
    let table = truths(&rows, take);
    if table[(rows.len() - 1) * take.cycles] {
        Some(table)
    } else {
        None
    }
}

/// The sheet file of these activators.
fn sheet_text(active: &[bool], cycles: usize) -> String {
    let mut text = format!("format=1\nrows={}\ncycles={cycles}\n", active.len() / cycles);
    for (k, line) in active.chunks(cycles).enumerate() {
        text += &format!("z{}=", k + 1);
        text.extend(line.iter().map(|&bit| if bit { '1' } else { '0' }));
        text.push('\n');
    }
    text
}

/// The length of the sheet file of so many rows and cycles.
fn text_length(rows: usize, cycles: usize) -> usize {
    let lines: usize = (1..=rows).map(|k| "z=\n".len() + number_length(k) + cycles).sum();
    "format=1\nrows=\ncycles=\n".len() + number_length(rows) + number_length(cycles) + lines
}

/// The sheet file of the rule and the take in these files, or none.
pub fn make_files(rule: &[u8], take: &[u8]) -> Result<Option<String>, Refusal> {
    let (rule, take) = read_pair(rule, take)?;
    Ok(make(&rule, &take).map(|active| sheet_text(&active, take.cycles)))
}

/// The length of that file, 0 where there is none.
pub fn sheet_length(rule: &[u8], take: &[u8]) -> Result<usize, Refusal> {
    let (rule, take) = read_pair(rule, take)?;
    Ok(make(&rule, &take).map_or(0, |active| text_length(active.len() / take.cycles, take.cycles)))
}
