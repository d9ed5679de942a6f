//! The words that are timed, which a commit changes.

use bench::kinds::Kind;
use bench::turns::batch_mut;
use bench::words::SAMPLES;
use second::{Code, Record};

/// A word, the place at fault in it, 0 for none, and the byte that is written after each call: the
/// one at that place as it was, or the first where there is none.
pub struct Sample {
    pub word: Vec<u8>,
    pub place: u32,
    index: usize,
    byte: u8,
}

impl Sample {
    fn new(code: &Code, word: Vec<u8>) -> Sample {
        let asked = Record::of(code).ask_in(code, &word);
        let place = asked.expect("a word of the code");
        let index = place.saturating_sub(1) as usize;
        Sample {
            byte: word[index],
            word,
            place,
            index,
        }
    }

    pub fn of_kind(code: &Code, kind: Kind) -> Vec<Sample> {
        let words = kind.words(code, SAMPLES).into_iter();
        words.map(|word| Sample::new(code, word)).collect()
    }
}

/// Nanoseconds a call. A commit corrects the word, and the byte that is written then damages it
/// again; the same is written after the other calls, so that the loops differ in the call alone.
pub fn batch(samples: &mut [Sample], rounds: usize, mut call: impl FnMut(&mut [u8], u32)) -> f64 {
    batch_mut(samples, rounds, move |sample| {
        call(&mut sample.word, sample.place);
        sample.word[sample.index] = sample.byte;
    })
}

#[cfg(test)]
mod tests {
    use super::*;
    use crate::KINDS;

    /// In every round the word is as it was, and its place the right one to commit.
    #[test]
    fn every_commit_of_a_batch_is_accepted() {
        let code = Code::open(6, 4, 0).expect("admitted");
        let record = Record::of(&code);
        for kind in KINDS {
            let mut samples = Sample::of_kind(&code, kind);
            let mut committed = 0;
            batch(&mut samples, 3, |word, place| {
                let told = record.commit_in(&code, place, word);
                assert_eq!(told.map(|told| told.0), Ok(place));
                assert_eq!(place > 0, kind == Kind::OneFlip);
                committed += 1;
            });
            assert_eq!(committed, 3 * SAMPLES);
            let words: Vec<_> = samples.into_iter().map(|sample| sample.word).collect();
            assert_eq!(words, kind.words(&code, SAMPLES));
        }
    }
}
