//! Damage to files, of the kinds that happen and of those that are just beside what is allowed.

use crate::padding::{places, put_zeros, Digits};
use crate::random::Random;
use std::ops::Range;

/// Numbers at the edges of ranges, and texts that are nearly numbers.
const EDGES: &[&str] = &[
    "0",
    "1",
    "2",
    "5",
    "31",
    "32",
    "33",
    "63",
    "64",
    "65",
    "127",
    "128",
    "129",
    "255",
    "256",
    "257",
    "65536",
    "99999",
    "100000",
    "00",
    "01",
    "007",
    "",
    "-1",
    "+1",
    "1.0",
    "1e1",
    "0x1",
    "4294967297",
    "18446744073709551617",
    "none",
];

/// The longest file that is read.
const MOST_BYTES: usize = 65_536;

/// The file with a fault, or with a few. Some damage leaves a valid file.
pub fn damaged(random: &mut Random, file: &[u8]) -> Vec<u8> {
    let mut file = file.to_vec();
    for _ in 0..if random.once_in(6) { 2 } else { 1 } {
        file = match random.below(10) {
            0 => with_byte_changed(random, file),
            1 => with_byte_inserted(random, file),
            2 | 3 => with_number_replaced(random, file),
            4 | 5 => with_zeros(random, file),
            6 => with_lines_moved(random, file),
            7 => with_word_replaced(random, file),
            8 => with_end_changed(random, file),
            _ => with_length_changed(random, file),
        };
    }
    file
}

fn with_byte_changed(random: &mut Random, mut file: Vec<u8>) -> Vec<u8> {
    if !file.is_empty() {
        let at = random.below(file.len());
        file[at] = if random.once_in(2) { random.byte() } else { file[at] ^ 1 << random.below(8) };
    }
    file
}

fn with_byte_inserted(random: &mut Random, mut file: Vec<u8>) -> Vec<u8> {
    let byte = if random.once_in(2) { random.byte() } else { *random.pick(&[&b' ', &b'0', &b'1', &b'\n', &b'=', &0]) };
    file.insert(random.between(0, file.len()), byte);
    file
}

/// Another number in the place of one in the file, at times the next one; half of them padded, up to one digit too many.
fn with_number_replaced(random: &mut Random, mut file: Vec<u8>) -> Vec<u8> {
    let Some(place) = picked(random, &file, |_| true) else { return file };
    let old = String::from_utf8_lossy(&file[place.clone()]);
    let higher = old.parse().map_or(0, |number: u64| number.saturating_add(1));
    let number = if random.once_in(3) { higher.to_string() } else { random.pick(EDGES).to_string() };
    let width = if random.once_in(2) { random.between(2, 6) } else { 0 };
    file.splice(place, format!("{number:0>width$}").bytes());
    file
}

/// Zeros in front of a key's number or of a cycle's digits, or up to a sixth or seventh digit of a value's number; or such a number made
/// a padded one that is often out of its range, or zero.
fn with_zeros(random: &mut Random, mut file: Vec<u8>) -> Vec<u8> {
    const HIGH: &[&str] = &["00002", "00033", "00065", "00129", "00257", "09999"];
    let way = random.below(5);
    let wanted = [Digits::Key, Digits::Bits, Digits::Value, Digits::Value, Digits::Value][way];
    let Some(place) = picked(random, &file, |digits| digits == wanted) else { return file };
    match way {
        0 | 1 => put_zeros(&mut file, place.start, random.between(1, 4)),
        2 => put_zeros(&mut file, place.start, random.between(6, 7).saturating_sub(place.len())),
        3 => drop(file.splice(place, random.pick(HIGH).bytes())),
        _ => drop(file.splice(place, vec![b'0'; random.between(1, 5)])),
    }
    file
}

/// A place of digits that are wanted; one of the first in the file more often.
fn picked(random: &mut Random, file: &[u8], wanted: impl Fn(Digits) -> bool) -> Option<Range<usize>> {
    let mut places: Vec<_> = places(file).filter(|(digits, _)| wanted(*digits)).collect();
    if places.is_empty() {
        return None;
    }
    let among = if random.once_in(2) { places.len() } else { places.len().min(6) };
    Some(places.swap_remove(random.below(among)).1)
}

/// A line removed, doubled, exchanged with another, or lines with carriage returns.
fn with_lines_moved(random: &mut Random, file: Vec<u8>) -> Vec<u8> {
    let mut lines: Vec<Vec<u8>> = file.split_inclusive(|byte| *byte == b'\n').map(<[u8]>::to_vec).collect();
    if lines.is_empty() {
        return file;
    }
    let (one, other) = (random.below(lines.len()), random.below(lines.len()));
    match random.below(5) {
        0 => drop(lines.remove(one)),
        1 => lines.insert(one, lines[one].clone()),
        2 => lines.swap(one, other),
        3 => lines[one] = with_return(&lines[one]),
        _ => lines = lines.iter().map(|line| with_return(line)).collect(),
    }
    lines.concat()
}

fn with_return(line: &[u8]) -> Vec<u8> {
    [line.strip_suffix(b"\n").unwrap_or(line), b"\r\n"].concat()
}

/// One of the formats' words in the place of another.
fn with_word_replaced(random: &mut Random, file: Vec<u8>) -> Vec<u8> {
    const WORDS: &[&str] = &[
        "format", "signals", "rows", "cycles", "loop", "none", "true", "false", "sig", "nsig", "not", "and", "or",
        "next", "always", "ever", "weak", "until", "release", "srelease",
    ];
    let Ok(text) = String::from_utf8(file.clone()) else { return file };
    let (old, new) = (random.pick(WORDS), random.pick(WORDS));
    let new = if random.once_in(4) { old.to_uppercase() } else { new.to_string() };
    text.replacen(old, &new, random.between(1, 2)).into_bytes()
}

/// The end cut off at any place, or only the last line feed; or something behind the end.
fn with_end_changed(random: &mut Random, mut file: Vec<u8>) -> Vec<u8> {
    match random.below(4) {
        0 => file.truncate(random.between(0, file.len())),
        1 => drop(file.pop()),
        2 => file.extend_from_slice(
            random.pick(&["\n", " ", "\0", "r1=true\n", "c0=1\n", "format=1\n", "z1=1\n"]).as_bytes(),
        ),
        _ => file.push(random.byte()),
    }
    file
}

/// A file around or above the longest that is read, or none at all.
fn with_length_changed(random: &mut Random, mut file: Vec<u8>) -> Vec<u8> {
    let length = match random.below(8) {
        0 => 0,
        1 => MOST_BYTES,
        2..=5 => MOST_BYTES + 1,
        _ => MOST_BYTES + random.between(2, 1000),
    };
    file.resize(length, *random.pick(&[&b'\n', &b'0', &b' ', &0]));
    file
}
