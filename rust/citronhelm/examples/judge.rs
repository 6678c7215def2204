//! Judges the rule and the take in the two files named on the command line.
//!
//!     cargo run --example judge -- rule.txt take.txt

use std::error::Error;
use std::fs::File;
use std::io::{self, Read};

/// A file's bytes, at most 65,537 of them: so many tell that it is too long.
fn read(name: &str) -> io::Result<Vec<u8>> {
    let mut bytes = Vec::new();
    File::open(name)?.take(65_537).read_to_end(&mut bytes)?;
    Ok(bytes)
}

fn main() -> Result<(), Box<dyn Error>> {
    let names: Vec<String> = std::env::args().skip(1).collect();
    let [rule, take] = &names[..] else {
        return Err("usage: judge RULE TAKE".into());
    };
    match citronhelm::judge(&read(rule)?, &read(take)?) {
        Ok(verdict) => println!("verdict={verdict}"),
        Err(refusal) => println!("refused: {refusal}"),
    }
    Ok(())
}
