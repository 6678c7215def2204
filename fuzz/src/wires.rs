//! Makes a valid circuit file of any bytes, with as little change as may be: a valid file stays as it is.

/// A circuit file, and its numbers of inputs and latches. The lines behind the header are shared out as it says, as long as they last;
/// those that are left are gates.
pub fn mended(file: &[u8]) -> (Vec<u8>, [usize; 2]) {
    let file = file.strip_suffix(b"\n").unwrap_or(file);
    let mut lines = file.split(|byte| *byte == b'\n').map(numbers);
    let header = lines.next().unwrap_or_default();
    let mut left: Vec<Vec<usize>> = lines.collect();
    let mut taken = |place: usize| {
        let count = header.get(place).copied().unwrap_or(1).min(left.len());
        left.drain(..count).collect::<Vec<_>>()
    };
    let [mut inputs, mut latches, outputs] = [1, 2, 3].map(&mut taken);
    let mut gates = left;
    let counts = [inputs.len(), latches.len(), outputs.len(), gates.len()];
    let maximum = counts[0] + counts[1] + counts[3];
    define(maximum, inputs.iter_mut().chain(&mut latches).chain(&mut gates));
    let number = |line: &[usize], place: usize, end: usize| line.get(place).map_or(0, |number| number % end);
    let any = 2 * maximum + 2;
    let inputs = inputs.iter().map(|line| format!("{}\n", line[0]));
    let latches = latches.iter().map(|line| format!("{} {}\n", line[0], number(line, 1, any)));
    let outputs = outputs.iter().map(|line| format!("{}\n", number(line, 0, any)));
    let gates =
        gates.iter().map(|line| format!("{} {} {}\n", line[0], number(line, 1, line[0]), number(line, 2, line[0])));
    let lines: String = inputs.chain(latches).chain(outputs).chain(gates).collect();
    let [i, l, o, a] = counts;
    (format!("aag {maximum} {i} {l} {o} {a}\n{lines}").into_bytes(), [i, l])
}

/// Lets each of the lines, as many as there are variables, define another one: that of the literal it begins with, or else the lowest that
/// no line does.
fn define<'a>(maximum: usize, lines: impl Iterator<Item = &'a mut Vec<usize>>) {
    let mut free = vec![true; maximum + 1];
    let mut others = Vec::new();
    for line in lines {
        let literal = line.first().copied().unwrap_or(0);
        match free.get_mut(literal / 2) {
            Some(free) if literal % 2 == 0 && literal > 0 && *free => *free = false,
            _ => others.push(line),
        }
    }
    let left = (1..=maximum).filter(|variable| free[*variable]);
    for (line, variable) in others.into_iter().zip(left) {
        line.resize(line.len().max(1), 0);
        line[0] = 2 * variable;
    }
}

/// The numbers in a line, by their last five digits.
fn numbers(line: &[u8]) -> Vec<usize> {
    let words = line.split(|byte| !byte.is_ascii_digit()).filter(|run| !run.is_empty());
    words.map(|run| run.iter().fold(0, |number, digit| (10 * number + usize::from(digit - b'0')) % 100_000)).collect()
}
