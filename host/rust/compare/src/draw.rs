//! The generator of the comparison: SplitMix64, started afresh for each case from the seed and
//! the number of the case. So a case can be made again alone, and the threads that share a run
//! make the same cases whatever their number. (The generator of `second` has too short a
//! period for some hundred million calls.)

pub struct Draw {
    state: u64,
}

impl Draw {
    pub fn of_case(seed: u64, number: u64) -> Draw {
        let start = Draw { state: seed }.bits().wrapping_add(number);
        Draw {
            state: Draw { state: start }.bits(),
        }
    }

    pub fn bits(&mut self) -> u64 {
        self.state = self.state.wrapping_add(0x9e37_79b9_7f4a_7c15);
        let z = (self.state ^ self.state >> 30).wrapping_mul(0xbf58_476d_1ce4_e5b9);
        let z = (z ^ z >> 27).wrapping_mul(0x94d0_49bb_1331_11eb);
        z ^ z >> 31
    }

    /// From 0 to m - 1, m >= 1; m is small, so the bias does not matter.
    pub fn below(&mut self, m: usize) -> usize {
        (self.bits() % m as u64) as usize
    }

    /// Yes once in m times.
    pub fn once_in(&mut self, m: usize) -> bool {
        self.below(m) == 0
    }

    pub fn one_of<T: Copy>(&mut self, choices: &[T]) -> T {
        choices[self.below(choices.len())]
    }

    pub fn word(&mut self, length: usize) -> Vec<u8> {
        let mut word = Vec::with_capacity(length);
        while word.len() < length {
            let bits = self.bits();
            let places = (length - word.len()).min(64);
            word.extend((0..places).map(|i| (bits >> i & 1) as u8));
        }
        word
    }
}

#[cfg(test)]
mod tests {
    use super::*;

    /// The first numbers of SplitMix64 from 1234567, as its authors' program gives them.
    #[test]
    fn known_numbers() {
        let mut draw = Draw { state: 1_234_567 };
        let first = [draw.bits(), draw.bits(), draw.bits()];
        let known = [
            6_457_827_717_110_365_317,
            3_203_168_211_198_807_973,
            9_817_491_932_198_370_423,
        ];
        assert_eq!(first, known);
    }

    #[test]
    fn cases_differ() {
        let first = |seed, number| Draw::of_case(seed, number).bits();
        assert_ne!(first(1, 1), first(1, 2));
        assert_ne!(first(1, 1), first(2, 1));
        assert_eq!(first(2, 3), first(2, 3));
    }

    #[test]
    fn words_have_their_length_and_both_bytes() {
        let word = Draw::of_case(1, 1).word(130);
        assert_eq!(word.len(), 130);
        assert!(word[64..128].contains(&0) && word[64..128].contains(&1));
    }
}
