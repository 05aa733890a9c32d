//! Buffers and tables as a caller may lend them: mostly good.

use crate::rng::Rng;

/// A buffer with anything in it, mostly long enough.
pub fn lend<T: Copy + TryFrom<u64>>(rng: &mut Rng, needed: usize) -> Vec<T> {
    let length = match rng.below(40) {
        0 => needed.saturating_sub(1),
        1 => rng.below(needed + 1),
        _ => needed + rng.pick(&[0, 0, 1, 3]),
    };
    junk(rng, length)
}

/// Words with anything in them.
pub fn junk<T: Copy + TryFrom<u64>>(rng: &mut Rng, length: usize) -> Vec<T> {
    let full = rng.once_in(8);
    let bits = if full { 8 * size_of::<T>() } else { 8 };
    (0..length).map(|_| T::try_from(rng.word() >> (64 - bits)).ok().expect("a word of its width")).collect()
}

/// Tries, mostly good; if there are `telling` places for a handler, it mostly stands at one of them.
pub fn tries(rng: &mut Rng, n: usize, telling: &[usize]) -> Vec<u32> {
    let mut words = vec![];
    for _ in 0..rng.weighted(&[(3, 0), (4, 1), (3, 2), (1, 4)]) {
        let (s, h) = if telling.is_empty() || rng.once_in(4) {
            let s = rng.below(n + 1);
            (s, s + rng.below(n - s + 3))
        } else {
            let h = rng.pick(telling);
            (rng.below(h + 1).min(n), h)
        };
        words.extend([s as u32, if rng.once_in(20) { u32::MAX } else { h as u32 }]);
    }
    match rng.below(40) {
        0 => words.extend([3, 2]),
        1 => words.extend([n as u32 + 1, n as u32 + 5]),
        2 => words.push(0),
        _ => {}
    }
    words
}
