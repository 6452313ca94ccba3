//! A generator of numbers (splitmix64): the same seed gives the same numbers.

#[derive(Clone, Debug)]
pub struct Chance(u64);

/// Spreads every bit of the number over all bits of the result.
fn mixed(number: u64) -> u64 {
    let mut z = number;
    z = (z ^ (z >> 30)).wrapping_mul(0xbf58_476d_1ce4_e5b9);
    z = (z ^ (z >> 27)).wrapping_mul(0x94d0_49bb_1331_11eb);
    z ^ (z >> 31)
}

impl Chance {
    pub fn new(seed: u64) -> Chance {
        Chance(mixed(seed))
    }

    /// The generator of one round of one part, so that a round can be played
    /// again without those before it.
    pub fn of_round(seed: u64, part: u64, round: u64) -> Chance {
        let start = mixed(seed) ^ mixed(part.wrapping_add(1) << 32) ^ mixed(!round);
        Chance(mixed(start))
    }

    pub fn number(&mut self) -> u64 {
        self.0 = self.0.wrapping_add(0x9e37_79b9_7f4a_7c15);
        mixed(self.0)
    }

    /// A number under the limit, which is above 0.
    pub fn below(&mut self, limit: usize) -> usize {
        (self.number() % limit as u64) as usize
    }

    /// A number from 0 to the greatest.
    pub fn up_to(&mut self, greatest: usize) -> usize {
        self.below(greatest + 1)
    }

    /// True once in so many times.
    pub fn one_in(&mut self, times: usize) -> bool {
        self.below(times) == 0
    }

    pub fn byte(&mut self) -> u8 {
        self.number() as u8
    }

    pub fn pick<T: Clone>(&mut self, things: &[T]) -> T {
        things[self.below(things.len())].clone()
    }

    pub fn fill(&mut self, bytes: &mut [u8]) {
        for chunk in bytes.chunks_mut(8) {
            let number = self.number().to_le_bytes();
            chunk.copy_from_slice(&number[..chunk.len()]);
        }
    }

    pub fn bytes(&mut self, length: usize) -> Vec<u8> {
        let mut bytes = vec![0; length];
        self.fill(&mut bytes);
        bytes
    }

    /// Puts the things in a random order.
    pub fn shuffle<T>(&mut self, things: &mut [T]) {
        for at in (1..things.len()).rev() {
            things.swap(at, self.up_to(at));
        }
    }
}

#[cfg(test)]
mod tests {
    use super::Chance;

    #[test]
    fn the_same_seed_gives_the_same_numbers() {
        let (mut one, mut two) = (Chance::of_round(3, 1, 7), Chance::of_round(3, 1, 7));
        assert_eq!(one.bytes(100), two.bytes(100));
        let mut other = Chance::of_round(3, 1, 8);
        assert_ne!(one.bytes(100), other.bytes(100));
    }

    #[test]
    fn every_number_under_the_limit_comes() {
        let mut chance = Chance::new(1);
        let mut seen = [false; 7];
        for _ in 0..200 {
            seen[chance.below(7)] = true;
        }
        assert_eq!(seen, [true; 7]);
    }
}
