//! The generator of words for the comparisons: x <- 48271 * x mod 2147483647 (Lehmer).

const MODULUS: u64 = 2_147_483_647;

#[derive(Clone, Debug)]
pub struct Draw {
    state: u64,
}

impl Draw {
    /// Starts from a state from 1 to 2147483646; the generator never leaves that range.
    pub fn from_state(state: u32) -> Draw {
        let state = u64::from(state);
        assert!((1..MODULUS).contains(&state));
        Draw { state }
    }

    /// Steps, then answers the new state modulo m, m >= 1.
    pub fn below(&mut self, m: usize) -> usize {
        self.state = 48_271 * self.state % MODULUS;
        (self.state % m as u64) as usize
    }

    /// A random word, place 1 drawn first.
    pub fn word(&mut self, length: usize) -> Vec<u8> {
        (0..length).map(|_| self.below(2) as u8).collect()
    }
}

#[cfg(test)]
mod tests {
    use super::*;

    /// The C++ standard gives the 10,000th number of this generator from 1 (`minstd_rand`).
    #[test]
    fn ten_thousandth_number() {
        let mut draw = Draw::from_state(1);
        for _ in 1..10_000 {
            draw.below(1);
        }
        assert_eq!(draw.below(MODULUS as usize), 399_268_537);
    }

    #[test]
    fn a_word_is_drawn_place_by_place() {
        let mut draw = Draw::from_state(307);
        let mut same = draw.clone();
        let word = draw.word(40);
        let drawn: Vec<u8> = (0..40).map(|_| same.below(2) as u8).collect();
        assert_eq!(word, drawn);
        assert!(word.contains(&0) && word.contains(&1));
    }
}
