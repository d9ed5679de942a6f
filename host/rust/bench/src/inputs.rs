//! What calls are compared on: the words that are timed, and what is refused for every reason that a
//! record, a word or an output gives.

use crate::coder::Corrected;
use crate::kinds::{Kind, KINDS};
use crate::words::SAMPLES;
use second::draw::Draw;
use second::{Code, Record, Refusal};

/// A record and a word. `code` is the record's, or why there is none.
pub struct Input<'a> {
    pub record: Record,
    pub code: &'a Result<Code, Refusal>,
    pub name: &'static str,
    pub word: &'a [u8],
    /// Places of the code, or where there is none, of the whole code of t and r.
    pub places: usize,
}

impl Input<'_> {
    /// Outputs that are too short, exact and longer.
    pub fn rooms(&self) -> [usize; 4] {
        let n = self.places;
        [0, n - 1, n, n + 19]
    }

    /// What the second program tells by a call that takes the record's code; refused, it leaves the
    /// record.
    pub fn told(&self, call: impl FnOnce(&Code) -> Result<(u32, Record), Refusal>) -> Corrected {
        let code = self.code.as_ref().map_err(|refusal| *refusal);
        let accepted = code
            .and_then(call)
            .map(|(place, counted)| (0, place, counted));
        let refused = |refusal: Refusal| (refusal.number, refusal.place, self.record);
        let (refusal, place, after) = accepted.unwrap_or_else(refused);
        Corrected {
            refusal,
            place,
            record: after.into(),
        }
    }

    /// The input, and which call it is given to, in words.
    pub fn named(&self, call: &str) -> String {
        let Record {
            t,
            r,
            s,
            words,
            clean,
            corrected_binary,
            corrected_pairs,
        } = self.record;
        let (name, length) = (self.name, self.word.len());
        format!(
            "t = {t}, r = {r}, s = {s}, {name}, {length} places, {call}, \
             counts {words} {clean} {corrected_binary} {corrected_pairs}"
        )
    }
}

/// Records with the t and r of a code: fresh, with counts, nearly full and full, unfit, closed, and
/// with another s, allowed or not.
fn records(code: &Code) -> Vec<Record> {
    let fresh = Record::of(code);
    let counts = |[words, clean, corrected_binary, corrected_pairs]: [u32; 4]| Record {
        words,
        clean,
        corrected_binary,
        corrected_pairs,
        ..fresh
    };
    let most = u32::MAX;
    let full = counts([most, most - 3, 1, 2]);
    let mut all = vec![
        fresh,
        counts([10, 5, 3, 2]),
        counts([most - 1, most - 4, 1, 2]),
        full,
        // Unfit: the counts do not add up, or only modulo 2^32, and t or r are none of a code.
        counts([1, 0, 0, 0]),
        counts([0, most, 1, 0]),
        Record { r: 0, ..fresh },
        Record { t: 13, ..fresh },
        Record {
            r: fresh.t + 1,
            ..fresh
        },
        Record { t: 0, ..fresh },
        Record::default(),
        // Where a place that is left out would change, 11 and 23 apply.
        Record { s: 1, ..full },
    ];
    let counted = counts([7, 4, 2, 1]);
    all.extend(left_out(code).map(|s| Record { s, ..counted }));
    all
}

/// Some s: in part 1 of the layout, at its end, in a pair and after one, and to the last place of
/// a message and beyond.
fn left_out(code: &Code) -> [u32; 8] {
    let message = code.message_length() as u32;
    let part = (1 << code.r()) - 1 - (2 * code.r() - code.t());
    let [last, next] = [1, 2].map(|count| message.saturating_sub(count));
    [1, part, part + 1, part + 2, next, last, message, u32::MAX]
}

/// Hands on every input with a record of the code's t and r.
pub fn each(whole: &Code, mut take: impl FnMut(&Input)) {
    for record in records(whole) {
        let code = &record.code();
        let shaped = code.as_ref().unwrap_or(whole);
        for (name, word) in &words(shaped, record) {
            take(&Input {
                record,
                code,
                name,
                word,
                places: shaped.length(),
            });
        }
    }
}

/// The words to be given with a record of a code. With the fresh record it is every one that is
/// timed, and bad bytes at every place; with others some of them. Further some of a wrong length.
fn words(code: &Code, record: Record) -> Vec<(&'static str, Vec<u8>)> {
    let timed = record == Record::of(code);
    let (count, step) = if timed { (SAMPLES, 1) } else { (2, 200) };
    let of = |kind: Kind| {
        let words = kind.words(code, count).into_iter();
        words.map(move |word| (kind.name(), word))
    };
    let bad = bad_words(code, step).into_iter();
    let n = code.length();
    let lengths = [
        ("a place too few", n - 1),
        ("a place too many", n + 1),
        ("no place", 0),
    ];
    let wrong = lengths.map(|(name, length)| (name, vec![1; length]));
    let all = KINDS.into_iter().flat_map(of);
    all.chain(bad.map(|word| ("bad bytes", word)))
        .chain(wrong)
        .collect()
}

/// Words with a bad byte at each place but those that `step` passes over, every other one with a
/// second bad byte at this place or another: the lowest is to be told.
fn bad_words(code: &Code, step: usize) -> Vec<Vec<u8>> {
    let n = code.length();
    let mut draw = Draw::from_state(1 + code.t());
    let word = |index: usize| {
        let mut word = draw.word(n);
        word[index] = 2 + draw.below(254) as u8;
        if index % 2 == 1 {
            word[draw.below(n)] = 2 + draw.below(254) as u8;
        }
        word
    };
    (0..n).step_by(step).map(word).collect()
}
