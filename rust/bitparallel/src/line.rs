//! Lines: a bit for each cycle, the last cycle lowest, with anything above the first cycle's bit.

/// A line of `W` words, the lowest first.
pub type Line<const W: usize> = [u64; W];

/// A line from its words.
#[inline]
pub fn line<const W: usize>(word: impl Fn(usize) -> u64) -> Line<W> {
    std::array::from_fn(word)
}

/// The bit at a place.
#[inline]
pub fn bit<const W: usize>(line: &Line<W>, place: usize) -> bool {
    line[place / 64] >> (place % 64) & 1 == 1
}

/// What is true in a cycle if `a` is in the next one; `behind` is said of the last cycle.
#[inline]
pub fn next<const W: usize>(a: &Line<W>, behind: bool) -> Line<W> {
    line(|w| a[w] << 1 | if w == 0 { behind.into() } else { a[w - 1] >> 63 })
}

/// Until of `a` and `b`, where `behind` is said of what follows the last cycle.
///
/// Until is true in a cycle if b is, or a is and until is in the next cycle, whose bit lies one lower. That is the rule for the
/// carry out of a place when `a | b` is added to `b`: it comes where both bits are 1, which is b, and where one is and a carry
/// comes in. The carry out of a place where just one bit is 1 is the sum's bit turned.
#[inline]
pub fn until<const W: usize>(a: &Line<W>, b: &Line<W>, behind: bool) -> Line<W> {
    let mut carry = behind;
    let mut until = [0; W];
    for w in 0..W {
        let either = a[w] | b[w];
        let (sum, above) = either.overflowing_add(b[w]);
        let (sum, again) = sum.overflowing_add(carry.into());
        until[w] = b[w] | either & !sum;
        carry = above | again;
    }
    until
}

/// `a` and `b`.
#[inline]
pub fn and<const W: usize>(a: &Line<W>, b: &Line<W>) -> Line<W> {
    line(|w| a[w] & b[w])
}

/// `a` or `b`.
#[inline]
pub fn or<const W: usize>(a: &Line<W>, b: &Line<W>) -> Line<W> {
    line(|w| a[w] | b[w])
}

/// Not `a`.
#[inline]
pub fn not<const W: usize>(a: &Line<W>) -> Line<W> {
    a.map(|word| !word)
}
