//! Every word, message and pair of places of the seven codes with n <= 15.

use super::{all_words, codes, combine, correct, encode, flipped, invert};
use second::Code;

fn small_codes() -> Vec<Code> {
    let mut small = codes();
    small.retain(|code| code.length() <= 15);
    assert_eq!(small.len(), 7);
    small
}

fn is_codeword(code: &Code, word: &[u8]) -> bool {
    code.syndrome(word) == Ok(0)
}

/// 1-perfect: one codeword within one place of each word, and correction gives it.
#[test]
fn correction_gives_the_only_codeword_near() {
    for code in small_codes() {
        for word in all_words(code.length()) {
            let mut near: Vec<(u32, Vec<u8>)> = vec![(0, word.clone())];
            near.extend((1..=code.length()).map(|i| (i as u32, flipped(&word, i))));
            near.retain(|(_, codeword)| is_codeword(&code, codeword));
            assert_eq!(near, [correct(&code, &word)], "{word:?}");
        }
    }
}

#[test]
fn messages_are_read_back() {
    for code in small_codes() {
        let k = code.message_length();
        for message in all_words(k) {
            let codeword = encode(&code, &message);
            assert!(is_codeword(&code, &codeword), "{message:?}");
            assert_eq!(code.read_message(&codeword), message);
        }
        let codewords = all_words(code.length()).filter(|word| is_codeword(&code, word));
        assert_eq!(codewords.count(), 1 << k, "({}, {})", code.t(), code.r());
    }
}

#[test]
fn the_inverse_cancels() {
    for code in small_codes() {
        for word in all_words(code.length()) {
            let product = combine(&code, &word, &invert(&code, &word));
            assert_eq!(product, vec![0; code.length()], "{word:?}");
        }
    }
}

#[test]
fn third_places_make_codewords() {
    for code in small_codes() {
        let n = code.length() as u32;
        for (i, j) in (1..=n).flat_map(|i| (1..=n).map(move |j| (i, j))) {
            if i == j {
                continue;
            }
            let third = code.third_place(i, j).expect("two places");
            assert!(third != i && third != j, "{i} {j}");
            let mut triple = vec![0; code.length()];
            for place in [i, j, third] {
                triple[place as usize - 1] = 1;
            }
            assert!(is_codeword(&code, &triple), "{i} {j}");
        }
    }
}
