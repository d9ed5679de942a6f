//! What is timed: the operations, and the inputs that each takes in turn.

use crate::programs::Program;
use bench::words::{codeword, SAMPLES};
use second::draw::Draw;
use second::Code;

#[derive(Debug, Clone, Copy, PartialEq, Eq)]
pub enum Operation {
    Encode,
    CorrectClean,
    CorrectBinary,
    CorrectPair,
    Combine,
    ThirdPlace,
}

pub const OPERATIONS: [Operation; 6] = [
    Operation::Encode,
    Operation::CorrectClean,
    Operation::CorrectBinary,
    Operation::CorrectPair,
    Operation::Combine,
    Operation::ThirdPlace,
];

/// One input: of the fields, each operation reads its own.
pub struct Sample {
    message: Vec<u8>,
    word: Vec<u8>,
    other: Vec<u8>,
    places: (u32, u32),
}

impl Operation {
    pub fn name(self) -> &'static str {
        match self {
            Operation::Encode => "encode",
            Operation::CorrectClean => "correct, no flip",
            Operation::CorrectBinary => "correct, flip in a binary place",
            Operation::CorrectPair => "correct, flip in a pair",
            Operation::Combine => "combine",
            Operation::ThirdPlace => "third place",
        }
    }

    /// The code with r = t has no pairs.
    pub fn is_there(self, code: &Code) -> bool {
        self != Operation::CorrectPair || code.r() < code.t()
    }

    pub fn call<P: Program>(self, program: &P, sample: &Sample, out: &mut [u8]) -> i32 {
        match self {
            Operation::Encode => program.encode(&sample.message, out),
            Operation::Combine => program.combine(&sample.word, &sample.other, out),
            Operation::ThirdPlace => program.third_place(sample.places.0, sample.places.1),
            _ => program.correct(&sample.word, out),
        }
    }

    pub fn samples(self, code: &Code) -> Vec<Sample> {
        let mut draw = Draw::from_state(1 + 100 * code.t() + code.r());
        (0..SAMPLES).map(|_| self.sample(code, &mut draw)).collect()
    }

    fn sample(self, code: &Code, draw: &mut Draw) -> Sample {
        let n = code.length();
        let message = draw.word(code.message_length());
        let mut word = codeword(code, &message);
        let other = codeword(code, &draw.word(code.message_length()));
        let flips = match self {
            Operation::CorrectBinary => Some(true),
            Operation::CorrectPair => Some(false),
            _ => None,
        };
        if let Some(binary) = flips {
            word[index(code, binary, draw)] ^= 1;
        }
        let i = draw.below(n);
        let j = (i + 1 + draw.below(n - 1)) % n;
        let places = (i as u32 + 1, j as u32 + 1);
        Sample {
            message,
            word,
            other,
            places,
        }
    }
}

/// The index of a random binary place, or of a random place in a pair.
fn index(code: &Code, binary: bool, draw: &mut Draw) -> usize {
    loop {
        let index = draw.below(code.length());
        if is_binary(code, index) == binary {
            return index;
        }
    }
}

/// By document 01's layout: binary places lead the message and the check, pairs follow in each.
fn is_binary(code: &Code, index: usize) -> bool {
    let in_check = (2 * code.r() - code.t()) as usize;
    let in_message = (1 << code.r()) - 1 - in_check;
    match index.checked_sub(code.message_length()) {
        Some(index) => index < in_check,
        None => index < in_message,
    }
}

#[cfg(test)]
mod tests {
    use super::*;

    /// Only a binary place makes zero when combined with itself; a pair's digit makes 2.
    #[test]
    fn binary_places_are_told_from_pairs() {
        let pairs = (2..=12).flat_map(|t| (1..=t).map(move |r| (t, r)));
        for code in pairs.filter_map(|(t, r)| Code::open(t, r, 0).ok()) {
            for index in 0..code.length() {
                let mut word = vec![0; code.length()];
                let mut twice = word.clone();
                word[index] = 1;
                code.combine(&word, &word, &mut twice).expect("fit words");
                let is_zero = !twice.contains(&1);
                assert_eq!(
                    is_binary(&code, index),
                    is_zero,
                    "{} of {code:?}",
                    index + 1
                );
            }
        }
    }
}
