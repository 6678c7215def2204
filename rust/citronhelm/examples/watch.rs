//! Judges a take while it is recorded, by the rule in the file named on the command line. Each line of standard input is a cycle, a digit
//! for each signal, and is answered at once by a line: the verdict after it, or the refusal's number, and the run goes on.
//!
//!     cargo run --example watch -- rule.txt

use citronhelm::Run;
use std::error::Error;
use std::fs::File;
use std::io::{self, BufRead, Read, Write};

fn main() -> Result<(), Box<dyn Error>> {
    let names: Vec<String> = std::env::args().skip(1).collect();
    let [name] = &names[..] else {
        return Err("usage: watch RULE".into());
    };
    let mut rule = Vec::new();
    File::open(name)?.take(65_537).read_to_end(&mut rule)?; // so many bytes tell that it is too long
    let mut run = match Run::begin(&rule) {
        Ok(run) => run,
        Err(refusal) => {
            println!("refused: {refusal}");
            return Ok(());
        }
    };
    let (mut cycles, mut answers) = (io::stdin().lock(), io::stdout().lock());
    let mut line = Vec::new();
    while cycles.read_until(b'\n', &mut line)? > 0 {
        let digits = line.strip_suffix(b"\n").unwrap_or(&line);
        match run.cycle(digits).and_then(|()| run.verdict()) {
            Ok(verdict) => writeln!(answers, "{verdict}")?,
            Err(refusal) => writeln!(answers, "refused={}", refusal.reason.number())?,
        }
        answers.flush()?;
        line.clear();
    }
    Ok(())
}
