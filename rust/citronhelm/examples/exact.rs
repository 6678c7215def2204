//! Writes into exactly as many bytes as are needed: the normal form of the rule in the file named on the command line, or, where a take is
//! named behind it, the sheet of the two. The length is asked for first, and so much memory is lent.
//!
//!     cargo run --example exact -- rule.txt
//!     cargo run --example exact -- rule.txt take.txt
//!
//! Prints the file, `none` where there is no sheet, or the refusal's number, file and line.

use citronhelm::{make_sheet, normal, normal_length, sheet_length, Refusal};
use std::error::Error;
use std::fs::File;
use std::io::{self, Read, Write};

/// A file's bytes, at most 65,537 of them: so many tell that it is too long.
fn read(name: &str) -> io::Result<Vec<u8>> {
    let mut bytes = Vec::new();
    File::open(name)?.take(65_537).read_to_end(&mut bytes)?;
    Ok(bytes)
}

fn normal_form(rule: &[u8]) -> Result<Vec<u8>, Refusal> {
    let mut output = vec![0; normal_length(rule, false)?];
    normal(rule, false, &mut output)?;
    Ok(output)
}

fn sheet(rule: &[u8], take: &[u8]) -> Result<Vec<u8>, Refusal> {
    let mut output = vec![0; sheet_length(rule, take)?];
    let made = make_sheet(rule, take, &mut output)?;
    Ok(made.map_or(b"none\n".to_vec(), |_| output))
}

fn main() -> Result<(), Box<dyn Error>> {
    let names: Vec<String> = std::env::args().skip(1).collect();
    let written = match &names[..] {
        [rule] => normal_form(&read(rule)?),
        [rule, take] => sheet(&read(rule)?, &read(take)?),
        _ => return Err("usage: exact RULE [TAKE]".into()),
    };
    match written {
        Ok(bytes) => io::stdout().write_all(&bytes)?,
        Err(Refusal { reason, file, line }) => {
            let file = file.map_or(0, citronhelm::File::number);
            println!("refused={}\nfile={file}\nline={line}", reason.number());
        }
    }
    Ok(())
}
