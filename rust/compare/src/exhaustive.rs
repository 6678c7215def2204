//! All small rules on all small takes, all sheets for the smallest, all short numbers, all small runs, and small circuits.

use crate::call::{Call, Service};
use crate::circuits;
use crate::files::{rule, sheet, take, BINARY, UNARY};
use crate::padding::places;
use crate::runs;
use crate::trials::Make;
use std::ops::Range;

/// Every normal form and circuit of rules of up to three rows, every verdict and made sheet for them on takes of up to three cycles with one
/// signal and of up to two cycles with two, and the lengths of all these; every check of every sheet for rules of up to two rows and takes
/// of up to three cycles with one signal; numbers; small runs; small circuits.
pub fn run(make: Make) -> Result<(), String> {
    for (signals, most_cycles) in [(1, 3), (2, 2)] {
        let takes = takes(signals, most_cycles);
        for rows in rules(signals, 3) {
            let rule = rule(signals, &rows);
            for negated in [false, true] {
                make(&Call { negated, ..Service::NormalLength.of(&[&rule]) })?;
                make(&Call { negated, ..Service::Normal.writing(&[&rule], vec![b'#'; 128]) })?;
            }
            make(&Service::Circuit.writing(&[&rule], vec![b'#'; 256]))?;
            for (_, take) in &takes {
                make(&Service::Judge.of(&[&rule, take]))?;
                make(&Service::SheetLength.of(&[&rule, take]))?;
                make(&Service::MakeSheet.writing(&[&rule, take], vec![b'#'; 64]))?;
            }
        }
    }
    all_sheets(make)?;
    all_numbers(make)?;
    runs::all_small(make)?;
    circuits::all_small(make)
}

fn all_sheets(make: Make) -> Result<(), String> {
    let takes = takes(1, 3);
    for rows in rules(1, 2) {
        let rule = rule(1, &rows);
        let rows = second::rows(&rule).expect("the rule is valid");
        for (cycles, take) in &takes {
            for lines in lists(&digits(*cycles), rows) {
                make(&Service::CheckSheet.of(&[&rule, take, &sheet(&lines)]))?;
            }
        }
    }
    Ok(())
}

/// Every text of up to six digits 0, 1 and 2 in the place of each number, in keys and in values, and of the digits of each cycle and each
/// row of a sheet: files read alone, and judged.
fn all_numbers(make: Make) -> Result<(), String> {
    let rule = rule(2, &["sig 1", "nsig 2", "and 1 2"]);
    let take = take("1", &["10", "01"]);
    for file in with_each_number(&rule) {
        make(&Service::ReadRule.of(&[&file]))?;
        make(&Service::Judge.of(&[&file, &take]))?;
    }
    for file in with_each_number(&take) {
        make(&Service::ReadTake.of(&[&file]))?;
        make(&Service::Judge.of(&[&rule, &file]))?;
    }
    with_each_number(&sheet(&["10", "01"])).try_for_each(|file| make(&Service::ReadSheet.of(&[&file])))
}

/// The file with each such text in the place of the digits at each place.
fn with_each_number(file: &[u8]) -> impl Iterator<Item = Vec<u8>> + '_ {
    let texts: Vec<String> = (0..=6)
        .flat_map(|length| lists(&["0", "1", "2"].map(str::to_string), length))
        .map(|list| list.concat())
        .collect();
    let with = |at: &Range<usize>, text: &String| [&file[..at.start], text.as_bytes(), &file[at.end..]].concat();
    places(file).flat_map(move |(_, at)| texts.iter().map(|text| with(&at, text)).collect::<Vec<_>>())
}

/// All rules of one to `most` rows, as their rows.
pub fn rules(signals: usize, most: usize) -> Vec<Vec<String>> {
    let mut longest: Vec<Vec<String>> = vec![vec![]];
    let mut all = Vec::new();
    for own in 1..=most {
        longest = extended(&longest, &rows_of(signals, own));
        all.extend(longest.clone());
    }
    all
}

/// All rows that may have the number `own`.
fn rows_of(signals: usize, own: usize) -> Vec<String> {
    let mut rows = vec!["true".to_string(), "false".to_string()];
    rows.extend((1..=signals).flat_map(|s| [format!("sig {s}"), format!("nsig {s}")]));
    for a in 1..own {
        rows.extend(UNARY.iter().map(|word| format!("{word} {a}")));
        rows.extend((1..own).flat_map(|b| BINARY.iter().map(move |word| format!("{word} {a} {b}"))));
    }
    rows
}

/// All takes of one to `most` cycles, looped at each cycle and open, with their numbers of cycles.
fn takes(signals: usize, most: usize) -> Vec<(usize, Vec<u8>)> {
    let mut all = Vec::new();
    for cycles in 1..=most {
        for lines in lists(&digits(signals), cycles) {
            all.push((cycles, take("none", &lines)));
            all.extend((0..cycles).map(|start| (cycles, take(&start.to_string(), &lines))));
        }
    }
    all
}

/// Every list with every thing behind it.
fn extended(lists: &[Vec<String>], things: &[String]) -> Vec<Vec<String>> {
    let longer = |list: &Vec<String>, thing: &String| list.iter().chain([thing]).cloned().collect();
    lists.iter().flat_map(|list| things.iter().map(move |thing| longer(list, thing))).collect()
}

/// All lists of so many things.
fn lists(things: &[String], length: usize) -> Vec<Vec<String>> {
    (0..length).fold(vec![vec![]], |shorter, _| extended(&shorter, things))
}

/// All texts of so many digits 0 and 1.
fn digits(length: usize) -> Vec<String> {
    lists(&["0".to_string(), "1".to_string()], length).iter().map(|list| list.concat()).collect()
}

#[cfg(test)]
mod tests {
    use super::*;

    #[test]
    fn all_are_made() {
        assert_eq!(rules(1, 3).len(), 4 + 4 * 14 + 4 * 14 * 36);
        assert_eq!(takes(1, 3).len(), 2 * 2 + 4 * 3 + 8 * 4);
        assert_eq!(digits(2), ["00", "01", "10", "11"]);
        assert_eq!(with_each_number(b"format=1\nr1=sig 1\n").count(), 3 * (1 + 3 + 9 + 27 + 81 + 243 + 729));
    }
}
