//! Writes the monitors of the rule in the file named on the command line as a circuit, an ASCII AIGER file, to standard output.
//!
//!     cargo run --example circuit -- rule.txt
//!
//! Prints the refusal's number, file and line where the rule is refused.

use citronhelm::{circuit_vec, Refusal};
use std::error::Error;
use std::fs::File;
use std::io::{self, Read, Write};

fn main() -> Result<(), Box<dyn Error>> {
    let names: Vec<String> = std::env::args().skip(1).collect();
    let [name] = &names[..] else {
        return Err("usage: circuit RULE".into());
    };
    let mut rule = Vec::new();
    File::open(name)?.take(65_537).read_to_end(&mut rule)?; // so many bytes tell that it is too long
    match circuit_vec(&rule) {
        Ok(bytes) => io::stdout().write_all(&bytes)?,
        Err(Refusal { reason, file, line }) => {
            let file = file.map_or(0, citronhelm::File::number);
            println!("refused={}\nfile={file}\nline={line}", reason.number());
        }
    }
    Ok(())
}
