// Sheet files.
use crate::reading::{Fault, Lines};
use crate::take::digits;

pub struct Sheet {
    pub rows: usize,
    pub cycles: usize,
    pub bits: Vec<bool>, // a line of cycles for each row, one behind the other
}

impl Sheet {
    /// The activator of row k (from 1) at cycle i.
    pub fn active(&self, k: usize, i: usize) -> bool {
        self.bits[(k - 1) * self.cycles + i]
    }
}

pub fn read_sheet(file: &[u8]) -> Result<Sheet, Fault> {
    let mut lines = Lines::new(file)?;
    lines.count("format", 1, 3)?;
    let rows = lines.count("rows", 128, 4)?;
    let cycles = lines.count("cycles", 256, 4)?;
    let mut bits = Vec::with_capacity(rows * cycles);
    for k in 1..=rows {
        let value = lines.numbered('z', k)?;
        bits.extend(digits(value, cycles).ok_or(lines.fault(2))?);
    }
    lines.end()?;
    Ok(Sheet { rows, cycles, bits })
}
