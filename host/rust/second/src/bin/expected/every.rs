//! Every word of the codes of at most twelve places that (2,1), (3,2), (4,2), (4,3) and (4,4)
//! are shortened to. What correction has to give is found by looking through all codewords, and
//! these by trying all words: no call of correction is made here.

use crate::digest::Digest;
use crate::lines::{counts, FILL};
use second::{Code, Record};

/// As many bytes as each output has; those after the word are kept.
const ROOM: usize = 16;

pub fn words() -> String {
    let mut text = String::new();
    for (t, r) in [(2, 1), (3, 2), (4, 2), (4, 3), (4, 4)] {
        let opened = (0..=15).filter_map(|s| Code::open(t, r, s).ok());
        for code in opened.filter(|code| code.length() <= 12) {
            text += &line(&code);
        }
    }
    text
}

/// t, r, s, the places of a word, the counts that one record for all words comes to, how many
/// words were refused with 11, and a digest of refusals, places and outputs.
fn line(code: &Code) -> String {
    let n = code.length();
    let mut codewords: Vec<Vec<u8>> = all_words(n).collect();
    codewords.retain(|word| code.syndrome(word) == Ok(0));
    let mut record = Record::of(code);
    let mut refused = 0;
    let mut digest = Digest::new();
    for word in all_words(n) {
        let mut output = [FILL; ROOM];
        match codewords.iter().find(|codeword| are_near(codeword, &word)) {
            Some(codeword) => {
                let place = place_of_difference(codeword, &word);
                output[..n].copy_from_slice(codeword);
                record = record.counted(code, place).expect("not full");
                digest.take([0, place]);
            }
            None => {
                refused += 1;
                digest.take([11, 0]);
            }
        }
        digest.take(output.map(u32::from));
    }
    let (t, r, s) = (code.t(), code.r(), code.s());
    let (counts, digest) = (counts(&record), digest.value());
    format!("every {t} {r} {s} {n} {counts} refused {refused} digest {digest}\n")
}

/// All words of a length, place 1 changing fastest.
fn all_words(length: usize) -> impl Iterator<Item = Vec<u8>> {
    (0..1u32 << length).map(move |bits| (0..length).map(|i| (bits >> i & 1) as u8).collect())
}

/// Whether two words differ in at most one place.
fn are_near(first: &[u8], second: &[u8]) -> bool {
    first.iter().zip(second).filter(|(a, b)| a != b).count() <= 1
}

/// Of two words that are near, the place where they differ, counted from 1; 0 for none.
fn place_of_difference(first: &[u8], second: &[u8]) -> u32 {
    let index = first.iter().zip(second).position(|(a, b)| a != b);
    index.map_or(0, |index| index as u32 + 1)
}

#[cfg(test)]
mod tests {
    use super::*;

    /// (3,2) with s = 2: four codewords, each with five words one place away, one of them in
    /// the unit and four in the pairs; the rest of the 32 words are near none.
    #[test]
    fn the_counts_of_a_code() {
        let code = Code::open(3, 2, 2).expect("allowed");
        let line = line(&code);
        assert!(line.starts_with("every 3 2 2 5 counts 24 4 4 16 refused 8 digest "));
    }
}
