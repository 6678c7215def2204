//! Makes a valid file of any bytes, with as little change as may be: a valid file stays as it is.

use second::WORDS;

/// A rule file, and its number of signals.
pub fn rule(file: &[u8]) -> (Vec<u8>, usize) {
    let lines = lines(file);
    let signals = count_in(&lines, 1, 32);
    let rows: Vec<String> = (1..).zip(behind(&lines, 3, 64)).map(|(own, line)| row(line, own, signals)).collect();
    let counts = head(&lines, &[("format", 1), ("signals", signals), ("rows", rows.len())]);
    (format!("{counts}{}", rows.concat()).into_bytes(), signals)
}

/// A take file with this number of signals, and its number of cycles.
pub fn take(file: &[u8], signals: usize) -> (Vec<u8>, usize) {
    let lines = lines(file);
    let cycles = behind(&lines, 4, 256);
    let start = match numbers(line(&lines, 3)).first() {
        Some(number) => number.with_value(number.value % cycles.len()),
        None => "none".to_string(),
    };
    let rows: String =
        (0..).zip(&cycles).map(|(own, line)| format!("c{own}={}\n", digits(value(line), signals))).collect();
    let counts = head(&lines, &[("format", 1), ("signals", signals), ("cycles", cycles.len())]);
    (format!("{counts}loop={start}\n{rows}").into_bytes(), cycles.len())
}

/// A sheet file with these numbers of rows and cycles.
pub fn sheet(file: &[u8], rows: usize, cycles: usize) -> Vec<u8> {
    let lines = lines(file);
    let row = |own: usize| format!("z{own}={}\n", digits(value(line(&lines, own + 2)), cycles));
    let counts = head(&lines, &[("format", 1), ("rows", rows), ("cycles", cycles)]);
    format!("{counts}{}", (1..=rows).map(row).collect::<String>()).into_bytes()
}

/// Calls of a run with this number of signals, a line each: a cycle, or `?` for the verdict.
pub fn calls(file: &[u8], signals: usize) -> Vec<u8> {
    let call = |line: &[u8]| if line == b"?" { "?\n".to_string() } else { format!("{}\n", digits(line, signals)) };
    lines(file).into_iter().map(call).collect::<String>().into_bytes()
}

/// As many digits as `length` says: those that are there, other bytes by their lowest bit; then 1.
pub fn digits(bytes: &[u8], length: usize) -> String {
    let there = bytes.iter().map(|byte| if byte & 1 == 1 { '1' } else { '0' });
    there.chain(std::iter::repeat('1')).take(length).collect()
}

/// The number of signals or cycles that a file of its own gives.
pub fn count(file: &[u8], place: usize, most: usize) -> usize {
    count_in(&lines(file), place, most)
}

fn count_in(lines: &[&[u8]], place: usize, most: usize) -> usize {
    within(numbers(line(lines, place)).first().map_or(1, |number| number.value), most)
}

/// The first lines of a file, with these keys and counts, each padded as the number that stands there.
fn head(lines: &[&[u8]], counts: &[(&str, usize)]) -> String {
    let there = |place: usize| numbers(line(lines, place)).first().copied().unwrap_or_default();
    let line = |(place, (key, count)): (usize, &(&str, usize))| format!("{key}={}\n", there(place).with_value(*count));
    counts.iter().enumerate().map(line).collect()
}

fn lines(file: &[u8]) -> Vec<&[u8]> {
    let file = file.strip_suffix(b"\n").unwrap_or(file);
    file.split(|byte| *byte == b'\n').collect()
}

/// The line at a place, an empty one where there is none.
fn line<'a>(lines: &[&'a [u8]], place: usize) -> &'a [u8] {
    lines.get(place).copied().unwrap_or(b"")
}

/// The lines from a place on: at least one, at most `most`.
fn behind<'a>(lines: &[&'a [u8]], place: usize, most: usize) -> Vec<&'a [u8]> {
    let there: Vec<&[u8]> = lines.iter().skip(place).take(most).copied().collect();
    if there.is_empty() {
        vec![b""]
    } else {
        there
    }
}

/// What stands behind the first equals sign, or the whole line.
fn value(line: &[u8]) -> &[u8] {
    line.iter().position(|byte| *byte == b'=').map_or(line, |place| &line[place + 1..])
}

/// A number in a value: what it stands for, by its last three digits; and if it has leading zeros, how many digits it may keep.
#[derive(Clone, Copy, Default)]
struct Number {
    value: usize,
    padded_to: usize,
}

impl Number {
    fn of(digits: &[u8]) -> Number {
        let value = digits.iter().fold(0, |number, digit| (10 * number + usize::from(digit - b'0')) % 1000);
        Number { value, padded_to: if digits[0] == b'0' { digits.len().min(5) } else { 0 } }
    }

    /// Another number, padded as this one.
    fn with_value(self, value: usize) -> String {
        format!("{value:0width$}", width = self.padded_to)
    }
}

/// The numbers in a line's value.
fn numbers(line: &[u8]) -> Vec<Number> {
    value(line).split(|byte| !byte.is_ascii_digit()).filter(|run| !run.is_empty()).map(Number::of).collect()
}

/// A number from 1 to `most`, the one given if it is one.
fn within(number: usize, most: usize) -> usize {
    (number + most - 1) % most + 1
}

/// The line of row `own`. What has no word of a row gets one by its bytes; the first row is a constant or a signal.
fn row(line: &[u8], own: usize, signals: usize) -> String {
    let spelt = value(line).split(|byte| *byte == b' ').next().unwrap_or(b"");
    let place = WORDS.iter().position(|(word, _)| word.as_bytes() == spelt);
    let sum = line.iter().fold(0, |sum, byte| 31 * sum % 1_000_003 + usize::from(*byte));
    let place = place.unwrap_or(sum % WORDS.len());
    let (word, count) = if own == 1 && place > 3 { WORDS[2 + place % 2] } else { WORDS[place] };
    let most = if word.ends_with("sig") { signals } else { own - 1 };
    let numbers = numbers(line);
    let there = |place: usize| numbers.get(place).copied().unwrap_or(Number { value: sum + place, padded_to: 0 });
    let operand = |place: usize| format!(" {}", there(place).with_value(within(there(place).value, most)));
    format!("r{own}={word}{}\n", (0..count).map(operand).collect::<String>())
}
