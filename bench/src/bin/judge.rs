// The job of the program `judge`, to measure its memory beside: reads rule.txt and take.txt, prints the verdict or the refusal.
use plain::judging::answer;

fn main() {
    let [rule, take] = ["rule.txt", "take.txt"].map(|name| std::fs::read(name).unwrap_or_default());
    print!("{}", answer(&rule, &take));
}
