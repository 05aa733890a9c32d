//! A small random source (splitmix64): the same seed gives the same questions everywhere.

use crate::question::Call;

pub struct Rng(u64);

/// A round has a stream for each call; there are fewer calls.
const STREAMS: u64 = 256;
const _: () = assert!((Call::ALL.len() as u64) < STREAMS);

impl Rng {
    /// A source of its own for each seed and stream.
    pub fn new(seed: u64, stream: u64) -> Rng {
        let mut rng = Rng(seed ^ stream.wrapping_mul(0xD134_2543_DE82_EF95));
        rng.word();
        rng
    }

    /// A source of its own for each round of a call.
    pub fn of(seed: u64, round: u64, call: Call) -> Rng { Rng::new(seed, round * STREAMS + call as u64) }

    pub fn word(&mut self) -> u64 {
        self.0 = self.0.wrapping_add(0x9E37_79B9_7F4A_7C15);
        let z = (self.0 ^ self.0 >> 30).wrapping_mul(0xBF58_476D_1CE4_E5B9);
        let z = (z ^ z >> 27).wrapping_mul(0x94D0_49BB_1331_11EB);
        z ^ z >> 31
    }

    /// A number below `n`, which is not 0.
    pub fn below(&mut self, n: usize) -> usize { (self.word() % n as u64) as usize }

    /// Yes, once in `n` times.
    pub fn once_in(&mut self, n: usize) -> bool { self.below(n) == 0 }

    pub fn pick<T: Copy>(&mut self, of: &[T]) -> T { of[self.below(of.len())] }

    /// One of the entries, by weight.
    pub fn weighted<T: Copy>(&mut self, of: &[(usize, T)]) -> T {
        let mut at = self.below(of.iter().map(|w| w.0).sum());
        of.iter().find(|w| { let here = at < w.0; at = at.wrapping_sub(w.0); here }).expect("a weight").1
    }
}
