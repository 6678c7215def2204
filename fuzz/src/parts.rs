//! Several files in one input: the lengths of all but the last, two bytes each, the higher first; then the files, one behind the other.

/// The `count` files of an input. A length that goes beyond the end means: up to the end.
pub fn split(input: &[u8], count: usize) -> Vec<&[u8]> {
    let (lengths, mut rest) = input.split_at((2 * (count - 1)).min(input.len()));
    let mut files = Vec::new();
    for number in 0..count - 1 {
        let byte = |place: usize| usize::from(lengths.get(place).copied().unwrap_or(0));
        let length = 256 * byte(2 * number) + byte(2 * number + 1);
        let (file, behind) = rest.split_at(length.min(rest.len()));
        files.push(file);
        rest = behind;
    }
    files.push(rest);
    files
}

/// The input of some files, those that have lengths being cut at 65,535 bytes.
pub fn join(files: &[Vec<u8>]) -> Vec<u8> {
    let (last, others) = files.split_last().expect("a target has files");
    let kept = |file: &Vec<u8>| file.len().min(65_535);
    let mut input: Vec<u8> = others.iter().flat_map(|file| (kept(file) as u16).to_be_bytes()).collect();
    others.iter().for_each(|file| input.extend(&file[..kept(file)]));
    input.extend(last);
    input
}
