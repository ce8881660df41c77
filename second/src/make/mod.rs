//! `make KIND SEED COUNT`: fresh input for `put`, `hear` or `count`, the same for the same seed.

mod events;
mod frames;
mod images;
mod samples;

/// SplitMix64: small, and good enough to choose test inputs by.
pub struct Random(u64);

impl Random {
    fn number(&mut self) -> u64 {
        self.0 = self.0.wrapping_add(0x9E37_79B9_7F4A_7C15);
        let z = (self.0 ^ self.0 >> 30).wrapping_mul(0xBF58_476D_1CE4_E5B9);
        let z = (z ^ z >> 27).wrapping_mul(0x94D0_49BB_1331_11EB);
        z ^ z >> 31
    }

    fn below(&mut self, limit: usize) -> usize {
        (self.number() % limit as u64) as usize
    }

    fn percent(&mut self, chance: usize) -> bool {
        self.below(100) < chance
    }

    fn pick<T: Copy>(&mut self, choices: &[T]) -> T {
        choices[self.below(choices.len())]
    }
}

/// So many frames, samples or events, and a few more; none where there is no such kind.
pub fn run(kind: &str, seed: u64, count: usize) -> Option<Vec<u8>> {
    let mut random = Random(seed);
    match kind {
        "put" => Some(frames::lines(&mut random, count)),
        "hear" => Some(samples::capture(&mut random, count)),
        "count" => Some(events::history(&mut random, count)),
        _ => None,
    }
}
