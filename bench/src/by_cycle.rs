// Truth of the rows of a normal form on a looped take once more, by the library's schedule: cycle by cycle from the last, all rows at each,
// in rounds of the loop. The services use `truth.rs`; this is measured beside the library's own way.
use crate::judging::Verdict;
use crate::reading::Refusal;
use crate::rule::{normal, Kind, Row};
use crate::take::{read_pair, Take};
use std::ops::Range;

/// What a temporal row says of a run in which nothing decides; none for a row that is not temporal.
fn endless(kind: Kind) -> Option<bool> {
    match kind {
        Kind::Always | Kind::Weak | Kind::Release => Some(true),
        Kind::Ever | Kind::Until | Kind::Srelease => Some(false),
        _ => None,
    }
}

/// All rows at a cycle, from its signals and from the rows one cycle on.
fn fill(rows: &[Row], take: &Take, cycle: usize, after: &[bool], now: &mut [bool]) {
    for (k, row) in rows.iter().enumerate() {
        let a = || now[row.n[0] - 1];
        let b = || now[row.n[1] - 1];
        now[k] = match row.kind {
            Kind::True => true,
            Kind::False => false,
            Kind::Sig => take.signal(row.n[0], cycle),
            Kind::Nsig => !take.signal(row.n[0], cycle),
            Kind::Not => unreachable!("a normal form has no `not`"),
            Kind::And => a() && b(),
            Kind::Or => a() || b(),
            Kind::Next => after[row.n[0] - 1],
            Kind::Always => a() && after[k],
            Kind::Ever => a() || after[k],
            Kind::Until | Kind::Weak => b() || a() && after[k],
            Kind::Srelease | Kind::Release => b() && (a() || after[k]),
        };
    }
}

/// Fills these cycles from the last to the first. `column` has the rows one cycle behind them, and then those at the first.
fn go_back(rows: &[Row], take: &Take, cycles: Range<usize>, column: &mut Vec<bool>, table: &mut [bool]) {
    let mut now = vec![false; rows.len()];
    for i in cycles.rev() {
        fill(rows, take, i, column, &mut now);
        for (line, &value) in table.chunks_exact_mut(take.cycles).zip(&now) {
            line[i] = value;
        }
        std::mem::swap(column, &mut now);
    }
}

fn operands_are(sure: &[bool], row: &Row) -> bool {
    row.operands().iter().all(|n| sure[n - 1])
}

/// Where a round starts. `column` has the rows at the loop's cycle, and then those behind the last: the same, but a temporal row with an
/// operand that is not sure starts anew, since what it came to rests on what the operand was.
fn start(rows: &[Row], sure: &[bool], column: &mut [bool]) {
    for (row, value) in rows.iter().zip(column) {
        match endless(row.kind) {
            Some(undecided) if !operands_are(sure, row) => *value = undecided,
            _ => {}
        }
    }
}

/// Which rows are sure behind a round: those whose operands are, and for which the round has left at the loop's cycle what it has read
/// behind the last one. A temporal row reads itself there, `next` its operand.
fn survey(rows: &[Row], behind: &[bool], left: &[bool]) -> Vec<bool> {
    let same = |n: usize| behind[n - 1] == left[n - 1];
    let mut sure = Vec::with_capacity(rows.len());
    for (own, row) in (1..).zip(rows) {
        let stays = match row.kind {
            Kind::Next => same(row.n[0]),
            kind => endless(kind).is_none() || same(own),
        };
        sure.push(stays && operands_are(&sure, row));
    }
    sure
}

/// Whether each row is true at each cycle of the endless repetition of a looped take, a line of cycles for each row, one behind the other;
/// and in how many rounds.
pub fn truths(rows: &[Row], take: &Take) -> (Vec<bool>, usize) {
    let first = take.loop_at.expect("the take is looped");
    let mut table = vec![false; rows.len() * take.cycles];
    let mut sure = vec![false; rows.len()];
    let mut column = vec![false; rows.len()];
    // rows that are not temporal start from the loop's cycle, filled once
    start(rows, &sure, &mut column);
    go_back(rows, take, first..first + 1, &mut column, &mut table);
    let mut rounds = 0;
    while !sure.iter().all(|&row| row) {
        start(rows, &sure, &mut column);
        let behind = column.clone();
        go_back(rows, take, first..take.cycles, &mut column, &mut table);
        sure = survey(rows, &behind, &column);
        rounds += 1;
    }
    go_back(rows, take, 0..first, &mut column, &mut table);
    (table, rounds)
}

/// The verdict on a rule and a looped take.
pub fn judge_files(rule: &[u8], take: &[u8]) -> Result<Verdict, Refusal> {
    let (rule, take) = read_pair(rule, take)?;
    if take.loop_at.is_none() {
        return Err(Refusal { reason: 8, file: 0, line: 0 });
    }
    let rows = normal(&rule.rows, false);
    let (table, _) = truths(&rows, &take);
    Ok(if table[(rows.len() - 1) * take.cycles] { Verdict::Holds } else { Verdict::Breaks })
}

#[cfg(test)]
mod tests {
    use super::*;
    use crate::truth;

    /// The normal form of a rule with one signal, and the take of these cycles, which loops to its first.
    fn pair(rows: &[&str], cycles: &[&str]) -> (Vec<Row>, Take) {
        let rule: String = (1..).zip(rows).map(|(k, row)| format!("r{k}={row}\n")).collect();
        let take: String = cycles.iter().enumerate().map(|(i, digit)| format!("c{i}={digit}\n")).collect();
        let rule = format!("format=1\nsignals=1\nrows={}\n{rule}", rows.len());
        let take = format!("format=1\nsignals=1\ncycles={}\nloop=0\n{take}", cycles.len());
        let (rule, take) = read_pair(rule.as_bytes(), take.as_bytes()).unwrap();
        (normal(&rule.rows, false), take)
    }

    /// An empty table, and the rows at the first cycle, filled once.
    fn entered(rows: &[Row], take: &Take) -> (Vec<bool>, Vec<bool>) {
        let (mut table, mut column) = (vec![false; rows.len() * take.cycles], vec![false; rows.len()]);
        start(rows, &vec![false; rows.len()], &mut column);
        go_back(rows, take, 0..1, &mut column, &mut table);
        (table, column)
    }

    /// The table by two rounds, whatever is sure then.
    fn by_two_rounds(rows: &[Row], take: &Take) -> Vec<bool> {
        let (mut table, mut column) = entered(rows, take);
        let mut sure = vec![false; rows.len()];
        for _ in 0..2 {
            start(rows, &sure, &mut column);
            let behind = column.clone();
            go_back(rows, take, 0..take.cycles, &mut column, &mut table);
            sure = survey(rows, &behind, &column);
        }
        table
    }

    /// The table by rounds until one ends as it began, with rows that start before the first and never anew.
    fn started_once(rows: &[Row], take: &Take) -> Vec<bool> {
        let (mut table, mut column) = entered(rows, take);
        start(rows, &vec![false; rows.len()], &mut column);
        loop {
            let behind = column.clone();
            go_back(rows, take, 0..take.cycles, &mut column, &mut table);
            if column == behind {
                return table;
            }
        }
    }

    fn of_root(table: &[bool], take: &Take) -> bool {
        table[table.len() - take.cycles]
    }

    #[test]
    fn rows_have_to_start_anew() {
        let (rows, take) = pair(&["sig 1", "ever 1", "always 2"], &["1", "0"]);
        assert_eq!(truths(&rows, &take), (truth::truths(&rows, &take), 2));
        assert!(of_root(&truths(&rows, &take).0, &take), "the signal comes again and again");
        assert!(!of_root(&started_once(&rows, &take), &take), "`always` stays false from when `ever` was");
    }

    /// No smaller rule or take is so, by rows and then by cycles: with one row that looks ahead on a branch, two rounds are enough.
    #[test]
    fn two_rounds_are_not_enough() {
        let (rows, take) = pair(&["sig 1", "ever 1", "until 2 1"], &["1", "0"]);
        let (right, wrong) = (truth::truths(&rows, &take), by_two_rounds(&rows, &take));
        assert_eq!(truths(&rows, &take), (right.clone(), 3));
        assert_eq!(right, [true, false, true, true, true, true]);
        assert_eq!(wrong, [true, false, true, true, true, false], "which a sheet would have");
        let (rows, take) = pair(&["sig 1", "next 1", "next 2", "next 3"], &["1"]);
        assert_eq!(truths(&rows, &take), (vec![true; 4], 3));
        assert!(!of_root(&by_two_rounds(&rows, &take), &take), "the verdict");
    }
}
