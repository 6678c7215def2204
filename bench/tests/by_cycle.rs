// The truth of a looped take by rounds (`by_cycle.rs`) held to that row by row (`truth.rs`), on the calls of `../rust/compare`: all small
// rules and takes, random ones, and rules with many rows on one branch that look ahead.
use compare::{all_small, nested_calls, random_calls, Call, Service};
use plain::rule::{normal, Kind, Row};
use plain::take::{read_pair, Take};
use plain::{by_cycle, truth};
use std::collections::BTreeMap;

/// What was seen: pairs of a rule and a looped take by their rounds, and how many of them had as many as they may; and loops.
#[derive(Debug, Default)]
struct Seen {
    rounds: BTreeMap<usize, usize>,
    with_most_rounds: usize,
    loops_of_one: usize,
    loops_to_first: usize,
    loops_between: usize,
}

/// How many rows on one branch of a normal form look ahead, at most.
fn ahead(rows: &[Row]) -> usize {
    let mut most: Vec<usize> = Vec::new();
    for row in rows {
        let below = row.operands().iter().map(|n| most[n - 1]).max().unwrap_or(0);
        let looks_ahead = !row.operands().is_empty() && !matches!(row.kind, Kind::And | Kind::Or);
        most.push(below + usize::from(looks_ahead));
    }
    most.into_iter().max().unwrap()
}

impl Seen {
    /// Holds the two together on the files of a call, if these are a rule and a looped take. Calls that have the same files with another
    /// service are left out.
    fn hold(&mut self, call: &Call) -> Result<(), String> {
        if call.service != Service::Judge {
            return Ok(());
        }
        match read_pair(&call.inputs[0], &call.inputs[1]) {
            Ok((rule, take)) if take.loop_at.is_some() => {
                self.hold_on(&normal(&rule.rows, false), &take).map_err(|what| format!("{what}: {call}"))
            }
            _ => Ok(()),
        }
    }

    fn hold_on(&mut self, rows: &[Row], take: &Take) -> Result<(), String> {
        let (table, rounds) = by_cycle::truths(rows, take);
        if table != truth::truths(rows, take) {
            return Err("different".to_string());
        }
        let most = 1 + ahead(rows);
        if rounds > most {
            return Err(format!("{rounds} rounds, more than {most}"));
        }
        *self.rounds.entry(rounds).or_default() += 1;
        self.with_most_rounds += usize::from(rounds == most);
        match take.loop_at {
            Some(0) => self.loops_to_first += 1,
            Some(start) if start + 1 == take.cycles => self.loops_of_one += 1,
            _ => self.loops_between += 1,
        }
        Ok(())
    }
}

#[test]
fn all_small_rules_and_takes() {
    let mut seen = Seen::default();
    all_small(&mut |call| seen.hold(call)).unwrap();
    println!("{seen:?}");
    assert_eq!(seen.rounds.keys().max(), Some(&3));
}

#[test]
fn random_files() {
    let mut seen = Seen::default();
    random_calls(8, 6_000, &mut |call| seen.hold(call)).unwrap();
    println!("{seen:?}");
}

#[test]
fn nested_rules() {
    let mut seen = Seen::default();
    nested_calls(9, 30_000, &mut |call| seen.hold(call)).unwrap();
    println!("{seen:?}");
    let Seen { rounds, with_most_rounds, loops_of_one, loops_to_first, loops_between } = seen;
    assert_eq!(rounds.values().sum::<usize>(), 30_000);
    assert_eq!(rounds.keys().max(), Some(&64), "no rule of 64 rows can need more");
    assert!([with_most_rounds, loops_of_one, loops_to_first, loops_between].iter().all(|&count| count > 1_000));
}
