//! The words that calls are given: of each kind as many different ones as a batch goes through.

use crate::words::codeword;
use second::draw::Draw;
use second::Code;

#[derive(Debug, Clone, Copy, PartialEq, Eq)]
pub enum Kind {
    Clean,
    OneFlip,
    TwoFlips,
    BadFirst,
    BadBehind,
    BadMiddle,
    BadLast,
}

pub const KINDS: [Kind; 7] = [
    Kind::Clean,
    Kind::OneFlip,
    Kind::TwoFlips,
    Kind::BadFirst,
    Kind::BadBehind,
    Kind::BadMiddle,
    Kind::BadLast,
];

impl Kind {
    pub fn name(self) -> &'static str {
        match self {
            Kind::Clean => "no flip",
            Kind::OneFlip => "one flip",
            Kind::TwoFlips => "two flips",
            Kind::BadFirst => "a bad byte at the first place",
            Kind::BadBehind => "a bad byte behind the front",
            Kind::BadMiddle => "a bad byte at the middle place",
            Kind::BadLast => "a bad byte at the last place",
        }
    }

    pub fn words(self, code: &Code, count: usize) -> Vec<Vec<u8>> {
        let mut draw = Draw::from_state(1 + 100 * code.t() + code.r());
        (0..count).map(|_| self.word(code, &mut draw)).collect()
    }

    fn word(self, code: &Code, draw: &mut Draw) -> Vec<u8> {
        let n = code.length();
        let mut word = codeword(code, &draw.word(code.message_length()));
        let i = draw.below(n);
        let j = (i + 1 + draw.below(n - 1)) % n;
        let bad = 2 + draw.below(254) as u8;
        match self {
            Kind::Clean => (),
            Kind::OneFlip => word[i] ^= 1,
            Kind::TwoFlips => [i, j].iter().for_each(|&index| word[index] ^= 1),
            Kind::BadFirst => word[0] = bad,
            Kind::BadBehind => word[front(n).min(n - 1)] = bad,
            Kind::BadMiddle => word[n / 2] = bad,
            Kind::BadLast => word[n - 1] = bad,
        }
        word
    }
}

/// As many bytes as a correction tests before its pass: the byte behind them is the first that only
/// the pass finds. In a shorter word the last is taken.
fn front(n: usize) -> usize {
    if n < 1024 {
        192
    } else {
        512
    }
}

#[cfg(test)]
mod tests {
    use super::*;
    use crate::words::SAMPLES;
    use std::collections::HashSet;

    /// The number of a refused syndrome and its place, or 0 and whether it is a codeword.
    fn told(code: &Code, word: &[u8]) -> (u32, u32) {
        match code.syndrome(word) {
            Ok(element) => (0, u32::from(element == 0)),
            Err(refusal) => (refusal.number, refusal.place),
        }
    }

    #[test]
    fn words_are_of_their_kind_and_differ() {
        let code = Code::open(10, 7, 0).expect("admitted");
        let expected = [
            (0, 1),
            (0, 0),
            (0, 0),
            (4, 1),
            (4, 193),
            (4, 512),
            (4, 1023),
        ];
        for (kind, told_of) in KINDS.into_iter().zip(expected) {
            let words = kind.words(&code, SAMPLES);
            assert!(words.iter().all(|word| told(&code, word) == told_of));
            assert_eq!(words.into_iter().collect::<HashSet<_>>().len(), SAMPLES);
        }
    }
}
