//! The three calls on an input, as a copy makes them and as the second program does.

use crate::calls::{ask, commit, Calls};
use bench::coder::{Answer, Corrected};
use bench::inputs::Input;
use bench::outcome::{correction, second_correction, Outcome};

/// A correction to an output of so many bytes, asking, or the commit of a place.
#[derive(Clone, Copy)]
pub enum Step {
    Correct(usize),
    Ask,
    Commit(u32),
}

impl Step {
    /// Every call that is made on an input. Places to commit are the one that asking tells, of a bad
    /// byte too, and the next, 0, the first behind the word, and the largest number.
    pub fn all(input: &Input) -> Vec<Step> {
        let told = Step::Ask.by_second(input).told.place;
        let mut claims = vec![told, 0, told + 1, input.places as u32 + 1, u32::MAX];
        claims.sort_unstable();
        claims.dedup();
        let mut all: Vec<Step> = claims.into_iter().map(Step::Commit).collect();
        all.push(Step::Ask);
        all.extend(input.rooms().map(Step::Correct));
        all
    }

    pub fn name(self) -> String {
        match self {
            Step::Correct(room) => format!("correct to an output of {room} bytes"),
            Step::Ask => "ask".into(),
            Step::Commit(place) => format!("commit of place {place}"),
        }
    }

    /// By a copy. Asking tells no record, so that none is compared; that it leaves the word is.
    pub fn by_copy(self, copy: Calls, input: &Input) -> Outcome {
        let record = input.record.into();
        match self {
            Step::Correct(room) => correction(copy.correct, input, room),
            Step::Ask => Outcome::of_word(input.word, |word| {
                let Answer { refusal, place } = ask(copy.ask, record, word);
                Corrected {
                    refusal,
                    place,
                    record,
                }
            }),
            Step::Commit(place) => {
                Outcome::of_word(input.word, |word| commit(copy.commit, record, place, word))
            }
        }
    }

    pub fn by_second(self, input: &Input) -> Outcome {
        let record = input.record;
        match self {
            Step::Correct(room) => second_correction(input, room),
            Step::Ask => Outcome::of_word(input.word, |word| {
                input.told(|code| Ok((record.ask_in(code, word)?, record)))
            }),
            Step::Commit(place) => Outcome::of_word(input.word, |word| {
                input.told(|code| record.commit_in(code, place, word))
            }),
        }
    }
}
