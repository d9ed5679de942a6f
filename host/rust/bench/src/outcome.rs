//! What a call told and left in a buffer, and what differs from another call.

use crate::coder::{correct, Correct, Corrected};
use crate::inputs::Input;

/// Bytes on each side of a buffer, which stay as they are.
const GUARD: usize = 8;

/// What a call told, and its buffer with the bytes around it.
pub struct Outcome {
    pub told: Corrected,
    buffer: &'static str,
    bytes: Vec<u8>,
}

impl Outcome {
    /// Of a call with an output of so many bytes, which holds the pattern before.
    pub fn of_output(room: usize, call: impl FnOnce(&mut [u8]) -> Corrected) -> Outcome {
        Outcome::of("output", pattern(room + 2 * GUARD), call)
    }

    /// Of a call on a word of its caller.
    pub fn of_word(word: &[u8], call: impl FnOnce(&mut [u8]) -> Corrected) -> Outcome {
        let mut bytes = pattern(word.len() + 2 * GUARD);
        bytes[GUARD..GUARD + word.len()].copy_from_slice(word);
        Outcome::of("word", bytes, call)
    }

    fn of(
        buffer: &'static str,
        mut bytes: Vec<u8>,
        call: impl FnOnce(&mut [u8]) -> Corrected,
    ) -> Outcome {
        let end = bytes.len() - GUARD;
        let told = call(&mut bytes[GUARD..end]);
        Outcome {
            told,
            buffer,
            bytes,
        }
    }

    /// The first thing that differs.
    pub fn difference(&self, other: &Outcome) -> Option<String> {
        let (a, b) = (self.told, other.told);
        if a.refusal != b.refusal {
            return Some(format!("refusal {} and {}", a.refusal, b.refusal));
        }
        if a.place != b.place {
            return Some(format!("place {} and {}", a.place, b.place));
        }
        if a.record != b.record {
            return Some(format!("{:?} and {:?}", a.record, b.record));
        }
        let mut pairs = self.bytes.iter().zip(&other.bytes);
        let index = pairs.position(|(x, y)| x != y)?;
        let place = index as isize + 1 - GUARD as isize;
        let (buffer, byte, its) = (self.buffer, self.bytes[index], other.bytes[index]);
        Some(format!("byte {place} of the {buffer} is {byte} and {its}"))
    }
}

/// Of a correction to an output of so many bytes.
pub fn correction(call: Correct, input: &Input, room: usize) -> Outcome {
    let Input { record, word, .. } = *input;
    Outcome::of_output(room, |out| correct(call, record.into(), word, out))
}

/// Of the same by the second program.
pub fn second_correction(input: &Input, room: usize) -> Outcome {
    let Input { record, word, .. } = *input;
    Outcome::of_output(room, |out| {
        input.told(|code| record.correct_in(code, word, out))
    })
}

/// Bytes that no word of bits has.
fn pattern(length: usize) -> Vec<u8> {
    (0..length).map(|i| i as u8 | 2).collect()
}
