//! Takes as a line for each signal.

use crate::cursor::Cursor;
use second::Refusal;

/// A take; the last cycle's bit is the lowest of each line.
pub struct Take {
    pub signals: usize,
    pub cycles: usize,
    pub start: Option<usize>,
    pub lines: [[u64; 4]; 32],
}

impl Take {
    /// Reads a take file.
    pub fn read(bytes: &[u8]) -> Result<Take, Refusal> {
        let mut cursor = Cursor::of(2, bytes)?;
        let signals = cursor.count(b"signals=", 1..=32)?;
        let cycles = cursor.count(b"cycles=", 1..=256)?;
        let start = read_start(&mut cursor, cycles)?;
        let mut words = [0u32; 256];
        for cycle in 0..cycles {
            cursor.numbered_line(b'c', cycle)?;
            words[cycles - 1 - cycle] = read_cycle(&mut cursor, signals)?;
        }
        cursor.end()?;
        let mut lines = [[0; 4]; 32];
        for block in 0..cycles.div_ceil(64) {
            let columns = transposed(&words[64 * block..][..64]);
            lines.iter_mut().zip(columns).for_each(|(line, column)| line[block] = column);
        }
        Ok(Take { signals, cycles, start, lines })
    }
}

/// Reads the loop line.
fn read_start(cursor: &mut Cursor, cycles: usize) -> Result<Option<usize>, Refusal> {
    cursor.line(b"loop=")?;
    if cursor.text(b"none\n").is_ok() {
        return Ok(None);
    }
    let start = cursor.number()?;
    cursor.text(b"\n")?;
    cursor.require(start < cycles, 6)?;
    Ok(Some(start))
}

/// Reads the digits of a cycle, eight at a time; signal 1 is the lowest bit.
#[inline]
fn read_cycle(cursor: &mut Cursor, signals: usize) -> Result<u32, Refusal> {
    cursor.require(cursor.rest.get(signals) == Some(&b'\n'), 2)?;
    let (digits, rest) = cursor.rest.split_at(signals);
    let (eights, others) = digits.as_chunks();
    let (mut word, mut wrong) = (0, 0);
    for (chunk, eight) in eights.iter().enumerate() {
        let bits = u64::from_le_bytes(*eight) ^ DIGITS;
        wrong |= bits & !ONES;
        word |= (gathered(bits) as u32) << (8 * chunk);
    }
    for (place, digit) in others.iter().enumerate() {
        let bit = digit ^ b'0';
        wrong |= u64::from(bit & !1);
        word |= u32::from(bit) << (8 * eights.len() + place);
    }
    cursor.require(wrong == 0, 2)?;
    cursor.rest = &rest[1..];
    Ok(word)
}

/// Eight digits 0, and the bits in which digits 0 and 1 differ.
const DIGITS: u64 = u64::from_le_bytes([b'0'; 8]);
const ONES: u64 = u64::from_le_bytes([1; 8]);

/// The lowest bits of eight bytes, which have no others, in one byte: the factor takes bit 8k to bit 56 + k, and no two products
/// meet, so that nothing carries.
#[inline]
fn gathered(bits: u64) -> u64 {
    bits.wrapping_mul(0x0102_0408_1020_4080) >> 56
}

/// The columns of 64 rows of 32 bits: bit r of column c is bit c of row r. Two squares of 32 rows, side by side in words of 64 bits, are
/// transposed by exchanging blocks of 16, 8, 4, 2 and 1.
fn transposed(rows: &[u32]) -> [u64; 32] {
    let mut words: [u64; 32] = std::array::from_fn(|row| u64::from(rows[row]) | u64::from(rows[row + 32]) << 32);
    let mut mask = 0x0000_ffff_0000_ffff_u64;
    for width in [16, 8, 4, 2, 1] {
        for row in (0..32).filter(|row| row & width == 0) {
            let exchanged = (words[row] >> width ^ words[row + width]) & mask;
            words[row] ^= exchanged << width;
            words[row + width] ^= exchanged;
        }
        mask ^= mask << (width / 2);
    }
    words
}

#[cfg(test)]
mod tests {
    use super::*;

    #[test]
    fn bits_are_gathered() {
        for byte in 0..256u64 {
            let bits = (0..8).map(|place| (byte >> place & 1) << (8 * place)).sum();
            assert_eq!(gathered(bits), byte);
        }
    }

    #[test]
    fn columns_are_the_rows_turned() {
        let rows: Vec<u32> = (0..64u32).map(|row| row.wrapping_mul(0x9e37_79b9).rotate_left(row)).collect();
        for (column, word) in transposed(&rows).into_iter().enumerate() {
            assert!((0..64).all(|row| word >> row & 1 == u64::from(rows[row] >> column & 1)));
        }
    }
}
