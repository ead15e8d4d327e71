//! Numbers that look random and come again from the same seed.

/// SplitMix64.
#[derive(Clone, Debug)]
pub struct Rng(u64);

impl Rng {
    /// A stream of its own for each name and number, so that a batch can be run
    /// again without those before it.
    #[must_use]
    pub fn new(seed: u64, name: &str, number: u64) -> Rng {
        let mut rng = Rng(seed);
        for byte in name.bytes() {
            rng.0 ^= rng.next() ^ u64::from(byte);
        }
        rng.0 ^= rng.next().wrapping_add(number);
        rng.next();
        rng
    }

    /// Any 64 bits.
    #[allow(clippy::should_implement_trait, reason = "it never ends")]
    pub fn next(&mut self) -> u64 {
        self.0 = self.0.wrapping_add(0x9E37_79B9_7F4A_7C15);
        let mut z = self.0;
        z = (z ^ (z >> 30)).wrapping_mul(0xBF58_476D_1CE4_E5B9);
        z = (z ^ (z >> 27)).wrapping_mul(0x94D0_49BB_1331_11EB);
        z ^ (z >> 31)
    }

    /// Any 32 bits.
    pub fn word(&mut self) -> u32 {
        (self.next() >> 32) as u32
    }

    /// A number below `limit`, which is not 0.
    pub fn below(&mut self, limit: usize) -> usize {
        (self.next() % limit as u64) as usize
    }

    /// A number below `limit`, which is not 0.
    pub fn under(&mut self, limit: u32) -> u32 {
        self.word() % limit
    }

    /// True once in so many times.
    pub fn one_in(&mut self, many: usize) -> bool {
        self.below(many) == 0
    }

    /// One of some.
    pub fn pick<T: Copy>(&mut self, from: &[T]) -> T {
        from[self.below(from.len())]
    }

    /// Any bytes.
    pub fn fill(&mut self, bytes: &mut [u8]) {
        for eight in bytes.chunks_mut(8) {
            let word = self.next().to_le_bytes();
            eight.copy_from_slice(&word[..eight.len()]);
        }
    }

    /// So many bytes.
    pub fn bytes(&mut self, count: usize) -> Vec<u8> {
        let mut bytes = vec![0; count];
        self.fill(&mut bytes);
        bytes
    }
}

#[cfg(test)]
mod tests {
    use super::*;

    #[test]
    fn a_stream_comes_again_and_no_two_are_alike() {
        let start = |seed, name, number| Rng::new(seed, name, number).next();
        assert_eq!(start(1, "a", 2), start(1, "a", 2));
        let all = [
            (1, "a", 2),
            (2, "a", 2),
            (1, "b", 2),
            (1, "a", 3),
            (1, "aa", 2),
        ];
        let mut starts = all.map(|(seed, name, number)| start(seed, name, number));
        starts.sort_unstable();
        assert!(starts.windows(2).all(|pair| pair[0] != pair[1]));
    }
}
