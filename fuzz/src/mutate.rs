//! Other inputs made of one. libFuzzer's own mutations, which know the dictionary, change bytes of one file; most of the results
//! are then mended, so that the files are valid and fit together. The rest stays broken, for the refusals.

use crate::random::Random;
use crate::target::Target;
use crate::{mend, parts, wires};

/// Another input. `by_bytes` mutates one file.
pub fn mutated(target: Target, input: &[u8], seed: u32, by_bytes: &mut dyn FnMut(&mut Vec<u8>)) -> Vec<u8> {
    let mut random = Random::new(seed);
    let mut files: Vec<Vec<u8>> = parts::split(input, target.files()).into_iter().map(<[u8]>::to_vec).collect();
    for _ in 0..1 + random.below(2) {
        let number = random.below(files.len());
        by_bytes(&mut files[number]);
    }
    if random.below(4) > 0 {
        mend_all(target, &mut files);
        if target == Target::Check && random.below(3) == 0 {
            put_made_sheet(&mut files, &mut random);
        }
        if target == Target::Run && random.below(3) == 0 {
            put_change(&mut files[2], &mut random);
        }
        if random.below(4) == 0 {
            let number = random.below(files.len());
            put_number(&mut files[number], &mut random);
        }
    }
    parts::join(&files)
}

/// Puts another number in the place of one in a file, padded or not: what is refused for a count, a signal, an operand or a loop's cycle,
/// or for its zeros.
fn put_number(file: &mut Vec<u8>, random: &mut Random) {
    const NUMBERS: [&str; 20] = [
        "0", "1", "2", "3", "5", "32", "33", "64", "65", "128", "129", "256", "257", "99999", "00", "01", "00000",
        "00002", "00257", "000001",
    ];
    let starts: Vec<usize> = (0..file.len()).filter(|place| file[*place].is_ascii_digit()).collect();
    if starts.is_empty() {
        return;
    }
    let start = starts[random.below(starts.len().min(40))];
    let length = file[start..].iter().take_while(|byte| byte.is_ascii_digit()).count();
    file.splice(start..start + length, NUMBERS[random.below(NUMBERS.len())].bytes());
}

/// Puts another change of a run's bytes behind those given, or in their place: a bit among the digits, in a row, or in one of the counts.
fn put_change(changes: &mut Vec<u8>, random: &mut Random) {
    if random.below(2) == 0 {
        changes.clear();
    }
    let place = match random.below(4) {
        0 => random.below(1024),
        1 | 2 => 1024 + random.below(24),
        _ => 1216 + random.below(4),
    };
    changes.extend((place as u16).to_be_bytes());
    changes.push(1 << random.below(8));
}

/// Makes all files valid and fitting. Changes of a run's bytes are always that.
fn mend_all(target: Target, files: &mut [Vec<u8>]) {
    match files {
        [take] if target == Target::Take => *take = mend::take(take, mend::count(take, 1, 32)).0,
        [sheet] if target == Target::Sheet => {
            *sheet = mend::sheet(sheet, mend::count(sheet, 1, 128), mend::count(sheet, 2, 256));
        }
        [inputs, latches, circuit] if target == Target::Circuit => {
            let counts;
            (*circuit, counts) = wires::mended(circuit);
            *inputs = mend::digits(inputs, counts[0]).into_bytes();
            *latches = mend::digits(latches, counts[1]).into_bytes();
        }
        [rule, others @ ..] => {
            let signals;
            (*rule, signals) = mend::rule(rule);
            let rows = second::rows(rule).expect("a mended rule is read");
            match others {
                [take] => *take = mend::take(take, signals).0,
                [calls, _] if target == Target::Run => *calls = mend::calls(calls, signals),
                [take, sheet] => {
                    let cycles;
                    (*take, cycles) = mend::take(take, signals);
                    *sheet = mend::sheet(sheet, rows, cycles);
                }
                [pendings, activators, digits] => {
                    *pendings = mend::digits(pendings, rows).into_bytes();
                    *activators = mend::digits(activators, rows).into_bytes();
                    *digits = mend::digits(digits, signals).into_bytes();
                }
                _ => (),
            }
        }
        [] => (),
    }
}

/// Puts the sheet of the rule and the take in the place of the one given, if they have one, with up to two digits turned.
fn put_made_sheet(files: &mut [Vec<u8>], random: &mut Random) {
    let [rule, take, sheet] = files else { return };
    let mut made = vec![0; 33_567];
    if let Ok(Some(length)) = second::make_sheet(rule, take, &mut made) {
        made.truncate(length);
        for _ in 0..random.below(3) {
            let place = random.below(length);
            if made[..place].iter().filter(|byte| **byte == b'\n').count() >= 3 && [b'0', b'1'].contains(&made[place]) {
                made[place] ^= 1;
            }
        }
        *sheet = made;
    }
}
