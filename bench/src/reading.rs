// What the files have in common: numbers, lines, counts, refusals.
const MOST_BYTES: usize = 65536;

/// Why a file is turned back: 01's number, and the line, from 1 (0 where no line is at fault).
#[derive(Debug)]
pub struct Fault {
    pub reason: u32,
    pub line: usize,
}

impl Fault {
    /// The same as a refusal: file 1 is the rule or the circuit, 2 the take, 3 the sheet.
    pub fn of(self, file: u32) -> Refusal {
        Refusal { reason: self.reason, file, line: self.line }
    }
}

/// Why a call is turned back. File and line are 0 where no file is at fault.
#[derive(Debug, PartialEq)]
pub struct Refusal {
    pub reason: u32,
    pub file: u32,
    pub line: usize,
}

impl Refusal {
    /// The three lines that a program prints.
    pub fn text(&self) -> String {
        format!("refused={}\nfile={}\nline={}\n", self.reason, self.file, self.line)
    }
}

/// A number in a value: one to five digits, the first of which may be zeros.
pub fn number(text: &str) -> Option<usize> {
    let digits = text.bytes().all(|b| b.is_ascii_digit());
    if text.is_empty() || text.len() > 5 || !digits {
        return None;
    }
    text.parse().ok()
}

/// How many digits a number is written with.
pub fn number_length(n: usize) -> usize {
    n.checked_ilog10().unwrap_or(0) as usize + 1
}

/// A number in a key or in a circuit: it has no leading zeros.
fn key_number(text: &str) -> Option<usize> {
    if text.len() > 1 && text.starts_with('0') {
        return None;
    }
    number(text)
}

/// The lines of a file, taken from the front.
pub struct Lines<'a> {
    rest: &'a [u8],
    line: usize,
}

impl<'a> Lines<'a> {
    pub fn new(file: &'a [u8]) -> Result<Self, Fault> {
        if file.len() > MOST_BYTES {
            return Err(Fault { reason: 1, line: 0 });
        }
        Ok(Lines { rest: file, line: 0 })
    }

    /// A fault of the line that was taken last.
    pub fn fault(&self, reason: u32) -> Fault {
        Fault { reason, line: self.line }
    }

    fn take_text(&mut self) -> Option<&'a str> {
        self.line += 1;
        let end = self.rest.iter().position(|&b| b == b'\n')?;
        let text = std::str::from_utf8(&self.rest[..end]).ok()?;
        self.rest = &self.rest[end + 1..];
        Some(text)
    }

    fn take_line(&mut self) -> Option<(&'a str, &'a str)> {
        self.take_text()?.split_once('=')
    }

    /// The numbers of the next line of a circuit, behind this word; they have no leading zeros.
    pub fn numbers<const N: usize>(&mut self, word: &str) -> Result<[usize; N], Fault> {
        let mut parts = self.take_text().and_then(|text| text.strip_prefix(word)).ok_or(self.fault(2))?.split(' ');
        let mut numbers = [0; N];
        for n in &mut numbers {
            *n = parts.next().and_then(key_number).ok_or(self.fault(2))?;
        }
        match parts.next() {
            None => Ok(numbers),
            Some(_) => Err(self.fault(2)),
        }
    }

    /// The value of the next line, which must have this key.
    pub fn value(&mut self, key: &str) -> Result<&'a str, Fault> {
        match self.take_line() {
            Some((k, value)) if k == key => Ok(value),
            _ => Err(self.fault(2)),
        }
    }

    /// The value of the next line, whose key must be this letter and this number.
    pub fn numbered(&mut self, letter: char, n: usize) -> Result<&'a str, Fault> {
        match self.take_line() {
            Some((k, value)) if k.strip_prefix(letter).and_then(key_number) == Some(n) => Ok(value),
            _ => Err(self.fault(2)),
        }
    }

    /// A number from 1 to `most`; out of range it is refused for this reason.
    pub fn count(&mut self, key: &str, most: usize, reason: u32) -> Result<usize, Fault> {
        let n = number(self.value(key)?).ok_or(self.fault(2))?;
        if (1..=most).contains(&n) {
            Ok(n)
        } else {
            Err(self.fault(reason))
        }
    }

    /// Nothing follows the last line.
    pub fn end(mut self) -> Result<(), Fault> {
        self.line += 1;
        if self.rest.is_empty() {
            Ok(())
        } else {
            Err(self.fault(2))
        }
    }
}
