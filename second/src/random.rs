//! A small seeded source of numbers, splitmix64: the same seed gives the same numbers on every machine.
//! Nothing here comes from document 01; it is the ground under the generated files and cases.

/// A stream of numbers that depends on its seed alone.
#[derive(Clone, Debug)]
pub struct Random {
    state: u64,
}

impl Random {
    pub fn new(seed: u64) -> Random {
        Random { state: seed }
    }

    /// The next 64 bits.
    pub fn number(&mut self) -> u64 {
        self.state = self.state.wrapping_add(0x9E37_79B9_7F4A_7C15);
        let mut mixed = self.state;
        mixed = (mixed ^ (mixed >> 30)).wrapping_mul(0xBF58_476D_1CE4_E5B9);
        mixed = (mixed ^ (mixed >> 27)).wrapping_mul(0x94D0_49BB_1331_11EB);
        mixed ^ (mixed >> 31)
    }

    /// Any 32-bit number.
    pub fn word(&mut self) -> u32 {
        (self.number() >> 32) as u32
    }

    /// A number from 0 to bound - 1; the bound is at least 1.
    pub fn below(&mut self, bound: u32) -> u32 {
        (((self.number() >> 32) * u64::from(bound)) >> 32) as u32
    }

    /// A number from low to high, both included.
    pub fn between(&mut self, low: u32, high: u32) -> u32 {
        let span = u64::from(high - low) + 1;
        low + (((self.number() >> 32) * span) >> 32) as u32
    }

    /// True in so many of a hundred cases.
    pub fn percent(&mut self, share: u32) -> bool {
        self.below(100) < share
    }

    /// True once in so many cases.
    pub fn once_in(&mut self, cases: u32) -> bool {
        self.below(cases) == 0
    }

    /// One of the choices, which aren't empty.
    pub fn of<T: Copy>(&mut self, choices: &[T]) -> T {
        choices[self.below(choices.len() as u32) as usize]
    }

    /// One of the choices, if there is any.
    pub fn any<T: Copy>(&mut self, choices: &[T]) -> Option<T> {
        if choices.is_empty() {
            None
        } else {
            Some(self.of(choices))
        }
    }

    /// A number of any length in bits, so that small and large ones both come up.
    pub fn uneven(&mut self) -> u32 {
        let bits = self.below(33);
        if bits == 0 {
            0
        } else {
            self.word() >> (32 - bits)
        }
    }

    /// The index of one of the weights, each taken as often as its weight says; their sum is at least 1.
    pub fn weighted(&mut self, weights: &[u32]) -> usize {
        let mut rest = self.below(weights.iter().sum());
        for (index, weight) in weights.iter().enumerate() {
            if rest < *weight {
                return index;
            }
            rest -= weight;
        }
        unreachable!("the rest is below the sum of the weights")
    }
}

#[cfg(test)]
mod tests {
    use super::Random;

    #[test]
    fn the_numbers_are_those_of_splitmix64() {
        let mut random = Random::new(1234567);
        let numbers: Vec<u64> = (0..3).map(|_| random.number()).collect();
        assert_eq!(numbers, [6457827717110365317, 3203168211198807973, 9817491932198370423]);
    }

    #[test]
    fn bounds_are_kept_and_reached() {
        let mut random = Random::new(1);
        let mut seen = [0; 6];
        for _ in 0..1000 {
            seen[random.below(3) as usize] += 1;
            seen[random.between(3, 5) as usize] += 1;
        }
        assert!(seen.iter().all(|count| *count > 200));
        assert_eq!(random.between(7, 7), 7);
        assert!((0..64).any(|_| random.between(0, u32::MAX) > u32::MAX / 2));
    }

    #[test]
    fn weights_of_zero_are_never_taken() {
        let mut random = Random::new(2);
        assert!((0..1000).all(|_| random.weighted(&[0, 3, 0, 1]) % 2 == 1));
        assert_eq!(random.any::<u32>(&[]), None);
    }
}
