//! Numbers with leading zeros: where the numbers of a file stand, and files with padded ones.

use crate::random::Random;
use std::ops::Range;

/// The most digits that a number may have.
pub const MOST_DIGITS: usize = 5;

/// What digits in a file are.
#[derive(Clone, Copy, Debug, PartialEq, Eq)]
pub enum Digits {
    /// The number in a key.
    Key,
    /// A number in a value.
    Value,
    /// A cycle's or a sheet row's, which are no number.
    Bits,
}

/// Where digits stand in a file, whole or damaged.
pub fn places(file: &[u8]) -> impl Iterator<Item = (Digits, Range<usize>)> + '_ {
    let mut behind = 0;
    file.split_inclusive(|byte| *byte == b'\n').flat_map(move |line| {
        let start = behind;
        behind += line.len();
        places_in(line).map(move |(digits, place)| (digits, start + place.start..start + place.end))
    })
}

/// Where digits stand in a line.
fn places_in(line: &[u8]) -> impl Iterator<Item = (Digits, Range<usize>)> + '_ {
    let equals = line.iter().position(|byte| *byte == b'=').unwrap_or(line.len());
    let in_value = if is_of_bits(line) { Digits::Bits } else { Digits::Value };
    let mut behind = 0;
    line.chunk_by(|one, next| one.is_ascii_digit() == next.is_ascii_digit()).filter_map(move |part| {
        let start = behind;
        behind += part.len();
        let digits = if start < equals { Digits::Key } else { in_value };
        part[0].is_ascii_digit().then_some((digits, start..behind))
    })
}

/// Whether a line is that of a cycle or of a sheet's row.
fn is_of_bits(line: &[u8]) -> bool {
    matches!(line, [b'c' | b'z', b'0'..=b'9', ..])
}

/// Whether a number has leading zeros.
pub fn is_padded(number: &[u8]) -> bool {
    matches!(number, [b'0', _, ..])
}

/// Whether a number in one of the file's values has leading zeros.
pub fn has_padded_value(file: &[u8]) -> bool {
    places(file).any(|(digits, place)| digits == Digits::Value && is_padded(&file[place]))
}

/// A valid file as it is, or with the numbers in its values padded: all of them to five digits, as the bench does it, or each to any
/// number of digits.
pub fn perhaps_padded(random: &mut Random, file: Vec<u8>) -> Vec<u8> {
    match random.below(6) {
        0 => with_widths(file, |_| MOST_DIGITS),
        1 => with_widths(file, |digits| random.between(digits, MOST_DIGITS)),
        _ => file,
    }
}

/// The file with each number in its values padded to a width, which its count of digits gives.
fn with_widths(mut file: Vec<u8>, mut width: impl FnMut(usize) -> usize) -> Vec<u8> {
    let values: Vec<_> = places(&file).filter(|(digits, _)| *digits == Digits::Value).collect();
    for (_, place) in values.into_iter().rev() {
        put_zeros(&mut file, place.start, width(place.len()) - place.len());
    }
    file
}

/// Puts so many zeros at a place.
pub fn put_zeros(file: &mut Vec<u8>, place: usize, zeros: usize) {
    file.splice(place..place, std::iter::repeat_n(b'0', zeros));
}

#[cfg(test)]
mod tests {
    use super::*;
    use crate::files::{random_rule, random_take, Size};

    const TAKE: &[u8] = b"format=1\nsignals=2\ncycles=12\nloop=0\nc0=10\n";

    #[test]
    fn digits_are_told_apart() {
        let of = |kind| {
            let of_kind = places(TAKE).filter(|(digits, _)| *digits == kind);
            of_kind.map(|(_, place)| std::str::from_utf8(&TAKE[place]).unwrap()).collect::<Vec<_>>()
        };
        assert_eq!(of(Digits::Value), ["1", "2", "12", "0"]);
        assert_eq!(of(Digits::Key), ["0"]);
        assert_eq!(of(Digits::Bits), ["10"]);
    }

    #[test]
    fn values_alone_are_padded() {
        let padded = with_widths(TAKE.to_vec(), |_| MOST_DIGITS);
        assert_eq!(padded, b"format=00001\nsignals=00002\ncycles=00012\nloop=00000\nc0=10\n");
        assert!(has_padded_value(&padded) && !has_padded_value(TAKE));
        assert!(!has_padded_value(b"r01=true\nc0=00\n"));
    }

    #[test]
    fn padded_files_stay_valid() {
        let mut random = Random::new(0);
        let mut padded = 0;
        for _ in 0..200 {
            let size = Size::up_to(&mut random, Size { signals: 32, rows: 64, cycles: 16 });
            let (rule, take) = (random_rule(&mut random, size), random_take(&mut random, size));
            let (rule, take) = (perhaps_padded(&mut random, rule), perhaps_padded(&mut random, take));
            assert_eq!((second::read_rule(&rule), second::read_take(&take)), (Ok(()), Ok(())));
            padded += usize::from(has_padded_value(&rule) && has_padded_value(&take));
        }
        assert!(padded > 10);
    }
}
