//! Judging of looped takes by the rounds that it needs when it goes cycle by cycle: the library beside plain Rust by the same schedule and
//! by two passes a row.
use crate::inputs::{rule_of, take_text, Inputs, Random, RULE_A};
use crate::tables::{micro, print_head, print_line};
use crate::timing;
use crate::FULL;
use plain::judging::{judge_files, Verdict};
use plain::{by_cycle, rule, take};
use std::collections::BTreeMap;
use std::hint::black_box;

const SEED: u64 = 5;
/// The random rules: how many, their signals, and the words of their rows, of which the first have one operand.
const RANDOM_RULES: usize = 1001;
const SIGNALS: usize = 8;
const WORDS: [&str; 10] = ["not", "next", "always", "ever", "and", "or", "weak", "until", "release", "srelease"];
const UNARY: usize = 4;

/// A rule, the same with another number of signals, and a looped take. With the other rule both files are read, and the call is refused.
#[derive(Clone)]
struct Pair {
    name: String,
    rule: Vec<u8>,
    other: Vec<u8>,
    take: Vec<u8>,
}

impl Pair {
    fn new(name: &str, rule: &str, take: Vec<u8>) -> Pair {
        let (before, behind) = rule.split_once("signals=").unwrap();
        let (signals, rows) = behind.split_once('\n').unwrap();
        let other = format!("{before}signals={}\n{rows}", signals.parse::<usize>().unwrap() + 1);
        Pair { name: name.to_string(), rule: rule.as_bytes().to_vec(), other: other.into_bytes(), take }
    }

    /// The rows of the normal form, and the rounds.
    fn size(&self) -> (usize, usize) {
        let (rule, take) = take::read_pair(&self.rule, &self.take).unwrap();
        let rows = rule::normal(&rule.rows, false);
        (rows.len(), by_cycle::truths(&rows, &take).1)
    }
}

/// A take of full length, each digit on half the time.
fn random_take(random: &mut Random, signals: usize, start: usize) -> Vec<u8> {
    let mut digits = || (0..signals).map(|_| ["0", "1"][random.below(2)]).collect();
    let cycles: Vec<String> = (0..FULL.cycles).map(|_| digits()).collect();
    take_text(&cycles, &start.to_string())
}

/// A rule of full size. As in the rule that the services are measured on, a quarter of the rows are signals: each of the eight twice, as it
/// is or negated. Each row behind them has any word, and as an operand any of the rows that are not one yet; the other operand, if it has
/// two, is another of these or any row at all, half the time each. Rows must join two of these where the last would not reach all otherwise.
fn random_rule(random: &mut Random) -> String {
    let leaves = FULL.rows / 4;
    let mut rows: Vec<String> = (0..leaves).map(|i| format!("{} {}", ["sig", "nsig"][random.below(2)], 1 + i % SIGNALS)).collect();
    let mut unread: Vec<usize> = (1..=leaves).collect();
    for own in leaves + 1..=FULL.rows {
        let must_join = unread.len() > FULL.rows - own + 1;
        let first = if must_join { UNARY } else { 0 };
        let word = first + random.below(WORDS.len() - first);
        let a = unread.swap_remove(random.below(unread.len()));
        let joins = must_join || !unread.is_empty() && random.below(2) == 0;
        rows.push(match WORDS[word] {
            unary if word < UNARY => format!("{unary} {a}"),
            binary => {
                let b = if joins { unread.swap_remove(random.below(unread.len())) } else { 1 + random.below(own - 1) };
                let [a, b] = [[a, b], [b, a]][random.below(2)];
                format!("{binary} {a} {b}")
            }
        });
        unread.push(own);
    }
    assert_eq!(unread, [FULL.rows], "all rows are under the last");
    rule_of(SIGNALS, &rows)
}

/// Random rules by their rounds, each on a take that loops to its first cycle: the one in the middle, the one at nine in ten, and the last;
/// and how many rules need how many rounds.
fn random_pairs() -> (Vec<Pair>, BTreeMap<usize, usize>) {
    let mut random = Random(SEED);
    let mut made = |n: usize| Pair::new(&format!("random rule {n}"), &random_rule(&mut random), random_take(&mut random, SIGNALS, 0));
    let mut all: Vec<Pair> = (1..=RANDOM_RULES).map(&mut made).collect();
    all.iter().for_each(hold_together);
    all.sort_by_cached_key(|pair| pair.size().1);
    let mut counts = BTreeMap::new();
    all.iter().for_each(|pair| *counts.entry(pair.size().1).or_default() += 1);
    let places = [("median", RANDOM_RULES / 2), ("nine in ten", RANDOM_RULES * 9 / 10), ("most rounds", RANDOM_RULES - 1)];
    let named = |(name, place): (&str, usize)| Pair { name: format!("random rule, {name}"), ..all[place].clone() };
    (places.map(named).into(), counts)
}

/// Chains of `ever` over a signal that comes and goes: each costs a round, so the longest has as many as 64 rows can need. A rule with the
/// chain and its negation has more rows to fill in each.
fn chains() -> [Pair; 2] {
    let chain = |rows: usize| (0..rows).map(|n| if n == 0 { "sig 1".to_string() } else { format!("ever {n}") }).collect::<Vec<_>>();
    let below = FULL.rows - 2;
    let with_negation = [chain(below), vec![format!("not {below}"), format!("or {below} {}", below + 1)]].concat();
    let take = random_take(&mut Random(SEED), 1, 0);
    [("chain of `ever`", chain(FULL.rows)), ("chain of `ever`, or its negation", with_negation)]
        .map(|(name, rows)| Pair::new(name, &rule_of(1, &rows), take.clone()))
}

/// All pairs to measure, and the rounds of the random rules.
fn pairs() -> (Vec<Pair>, BTreeMap<usize, usize>) {
    let of_a = |start: usize| {
        let rule = std::str::from_utf8(RULE_A).unwrap();
        Pair::new(&format!("rule A, loop {start}"), rule, random_take(&mut Random(SEED), 2, start))
    };
    let Inputs { rule, other, looped, .. } = Inputs::new(FULL);
    let full = Pair { name: "full size".to_string(), rule, other, take: looped };
    let (random, counts) = random_pairs();
    ([of_a(0), of_a(FULL.cycles / 2), full].into_iter().chain(random).chain(chains()).collect(), counts)
}

/// Whether a rule holds on a looped take, or the number of the refusal.
type Judge = fn(&[u8], &[u8]) -> Result<bool, u32>;

const JUDGES: [(&str, Judge); 3] =
    [("proved", proved), ("plain Rust, same schedule", same_schedule), ("plain Rust, two passes a row", two_passes)];

fn proved(rule: &[u8], take: &[u8]) -> Result<bool, u32> {
    let verdict = citronhelm::judge_looped(rule, take);
    verdict.map(|verdict| verdict == citronhelm::Verdict::Holds).map_err(|refusal| refusal.reason.number().into())
}

fn same_schedule(rule: &[u8], take: &[u8]) -> Result<bool, u32> {
    by_cycle::judge_files(rule, take).map(|verdict| verdict == Verdict::Holds).map_err(|refusal| refusal.reason)
}

fn two_passes(rule: &[u8], take: &[u8]) -> Result<bool, u32> {
    judge_files(rule, take, true).map(|verdict| verdict == Verdict::Holds).map_err(|refusal| refusal.reason)
}

/// Ends the program where the judges differ on a pair, or do not refuse the other rule.
fn hold_together(pair: &Pair) {
    let by_all = |rule: &[u8]| JUDGES.map(|(_, judge)| judge(rule, &pair.take));
    let [proved, same_schedule, two_passes] = by_all(&pair.rule);
    assert!(proved.is_ok() && proved == same_schedule && proved == two_passes, "the judges differ on {}", pair.name);
    assert_eq!(by_all(&pair.other), [Err(7); 3], "{}", pair.name);
}

/// The best times of the judges on a pair and then of their refusals, for each pair.
fn measured(pairs: &[Pair]) -> Vec<[[f64; 3]; 2]> {
    let mut jobs: Vec<Box<dyn FnMut() + '_>> = Vec::new();
    for pair in pairs {
        for rule in [&pair.rule, &pair.other] {
            jobs.extend(JUDGES.map(|(_, judge)| -> Box<dyn FnMut() + '_> {
                Box::new(move || {
                    black_box(judge(black_box(rule), black_box(&pair.take))).ok();
                })
            }));
        }
    }
    let best: Vec<f64> = timing::measure(&mut jobs).iter().map(|times| times.best).collect();
    let (by_rule, _) = best.as_chunks();
    by_rule.as_chunks().0.to_vec()
}

/// A line for each pair: its rows and rounds, the time of each judge less reading, and the ratio of the first two.
pub fn print() {
    let (pairs, counts) = pairs();
    pairs.iter().for_each(hold_together);
    let columns = ["µs a call, less reading, best", "rows", "rounds"].into_iter().chain(JUDGES.map(|(name, _)| name));
    print_head(&columns.chain(["proved to same schedule"]).map(str::to_string).collect::<Vec<_>>());
    for (pair, [whole, reading]) in pairs.iter().zip(measured(&pairs)) {
        let (rows, rounds) = pair.size();
        let rest = [0, 1, 2].map(|judge| whole[judge] - reading[judge]);
        let [proved, same_schedule, two_passes] = rest.map(micro);
        let ratio = format!("{:.2}", rest[0] / rest[1]);
        print_line(&[pair.name.clone(), rows.to_string(), rounds.to_string(), proved, same_schedule, two_passes, ratio]);
    }
    let counts: Vec<String> = counts.iter().map(|(rounds, rules)| format!("{rounds} ({rules})")).collect();
    println!("\nRounds that the {RANDOM_RULES} random rules need, and how many of them: {}.", counts.join(", "));
}
