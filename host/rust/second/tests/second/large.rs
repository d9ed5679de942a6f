//! Drawn words of the codes with n = 1,023, 2,047 and 4,095.

use super::{codes, combine, correct, encode, flipped, invert};
use second::draw::Draw;
use second::Code;

const ROUNDS: usize = 100;

fn for_drawn_rounds(check: impl Fn(&Code, &mut Draw)) {
    let mut large = codes();
    large.retain(|code| code.length() >= 1_023);
    let lengths: Vec<usize> = large.iter().map(Code::length).collect();
    let expected = [vec![1_023; 6], vec![2_047; 6], vec![4_095; 7]];
    assert_eq!(lengths, expected.concat());
    for code in large {
        let mut draw = Draw::from_state(4_271 + code.r());
        for _ in 0..ROUNDS {
            check(&code, &mut draw);
        }
    }
}

#[test]
fn one_flip_is_corrected() {
    for_drawn_rounds(|code, draw| {
        let message = draw.word(code.message_length());
        let codeword = encode(code, &message);
        assert_eq!(code.read_message(&codeword), message);
        assert_eq!(correct(code, &codeword), (0, codeword.clone()));
        let place = 1 + draw.below(code.length());
        let told = correct(code, &flipped(&codeword, place));
        assert_eq!(told, (place as u32, codeword));
    });
}

#[test]
fn any_word_is_corrected_to_a_codeword_at_the_place_told() {
    for_drawn_rounds(|code, draw| {
        let word = draw.word(code.length());
        let (place, codeword) = correct(code, &word);
        assert_eq!(code.syndrome(&codeword), Ok(0));
        let expected = match place {
            0 => word,
            place => flipped(&word, place as usize),
        };
        assert_eq!(codeword, expected);
    });
}

#[test]
fn codewords_form_a_subgroup() {
    for_drawn_rounds(|code, draw| {
        let first = encode(code, &draw.word(code.message_length()));
        let second = encode(code, &draw.word(code.message_length()));
        assert_eq!(code.syndrome(&combine(code, &first, &second)), Ok(0));
        assert_eq!(code.syndrome(&invert(code, &first)), Ok(0));
        let word = draw.word(code.length());
        assert_eq!(
            code.syndrome(&combine(code, &first, &word)),
            code.syndrome(&word)
        );
    });
}

#[test]
fn third_places_close_triples() {
    for_drawn_rounds(|code, draw| {
        let n = code.length();
        let i = draw.below(n) as u32;
        let j = (i + 1 + draw.below(n - 1) as u32) % n as u32;
        let (i, j) = (i + 1, j + 1);
        let third = code.third_place(i, j).expect("two places");
        let triple = [i, j, third]
            .iter()
            .fold(vec![0; n], |word, &p| flipped(&word, p as usize));
        assert_eq!(triple.iter().filter(|&&place| place == 1).count(), 3);
        assert_eq!(code.syndrome(&triple), Ok(0));
        assert_eq!(code.third_place(third, i), Ok(j));
    });
}
