//! Shortened codes (request C-17): which s are allowed, every word of the short codes against
//! a search among all codewords, and longer ones against the whole code, where the places
//! left out are 0.

use super::{accepted, all_words, codes, correct, flipped, layout, open, word};
use second::draw::Draw;
use second::{Code, Refusal};

fn refused(number: u32) -> Refusal {
    Refusal { number, place: 0 }
}

/// Every allowed s of a code, found by opening it.
fn allowed(t: u32, r: u32) -> Vec<u32> {
    (0..1 << t)
        .filter(|&s| Code::open(t, r, s).is_ok())
        .collect()
}

/// Every code of at most 12 places that (2,1), (3,2), (4,2), (4,3) and (4,4) are shortened to.
fn short_codes() -> Vec<Code> {
    let pairs = [(2, 1), (3, 2), (4, 2), (4, 3), (4, 4)];
    let opened = |(t, r)| (0..1u32 << t).filter_map(move |s| Code::open(t, r, s).ok());
    let mut short: Vec<Code> = pairs.into_iter().flat_map(opened).collect();
    short.retain(|code| code.length() <= 12);
    let lengths: Vec<usize> = short.iter().map(Code::length).collect();
    let expected: [&[usize]; 5] = [
        &[3],
        &[7, 6, 5],
        &[12, 10, 8, 6],
        &[12, 11, 10, 8, 6],
        &[12, 11, 10, 9, 8, 7, 6, 5],
    ];
    assert_eq!(lengths, expected.concat());
    short
}

fn distance(first: &[u8], second: &[u8]) -> usize {
    first.iter().zip(second).filter(|(a, b)| a != b).count()
}

/// The words whose syndrome is zero, among all words of the code's length.
fn codewords(code: &Code) -> Vec<Vec<u8>> {
    all_words(code.length())
        .filter(|word| code.syndrome(word) == Ok(0))
        .collect()
}

/// The place where two words differ that differ in at most one; 0 for equal words.
fn place_between(first: &[u8], second: &[u8]) -> u32 {
    let differs = first.iter().zip(second).position(|(a, b)| a != b);
    differs.map_or(0, |index| index as u32 + 1)
}

#[test]
fn the_allowed_s() {
    assert_eq!(allowed(2, 1), [0]);
    assert_eq!(allowed(2, 2), [0]);
    assert_eq!(allowed(3, 2), [0, 1, 2]);
    assert_eq!(allowed(3, 3), [0, 1, 2, 3]);
    assert_eq!(allowed(4, 2), [0, 1, 2, 3, 5, 7, 9]);
    assert_eq!(allowed(4, 3), [0, 1, 2, 3, 4, 5, 7, 9]);
    assert_eq!(allowed(4, 4), [0, 1, 2, 3, 4, 5, 6, 7, 8, 9, 10]);
}

/// C-17's words as a formula: s ends inside part 1, at its end or after a whole pair, and a
/// message place stays. Part 1 has k - a places.
#[test]
fn the_allowed_s_of_every_code() {
    for code in codes() {
        let (t, r, n) = (code.t(), code.r(), code.length() as u32);
        let part_1 = (1 << r) - 1 - (2 * r - t);
        let fits = |s: u32| (s <= part_1 || (s - part_1) % 2 == 0) && s < n - t;
        for s in (0..=n + 3).chain([u32::MAX - 1, u32::MAX]) {
            match code.shortened(s) {
                Ok(opened) => {
                    assert!(fits(s), "({t}, {r}) {s}");
                    let told = (opened.t(), opened.r(), opened.s());
                    assert_eq!(told, (t, r, s));
                    assert_eq!(opened.length() as u32, n - s);
                    assert_eq!(opened.message_length() as u32, n - t - s);
                }
                Err(refusal) => {
                    assert!(!fits(s), "({t}, {r}) {s}");
                    assert_eq!(refusal, refused(10));
                }
            }
        }
    }
}

#[test]
fn opening() {
    let reason = |t, r, s| Code::open(t, r, s).expect_err("refused");
    assert_eq!(reason(1, 1, 9), refused(1));
    assert_eq!(reason(5, 2, 1), refused(1));
    assert_eq!(reason(3, 2, 3), refused(10));
    assert_eq!(reason(3, 3, 4), refused(10));
    assert_eq!(reason(2, 1, 1), refused(10));
    assert_eq!(reason(2, 2, 1), refused(10));
    // s is judged with the r in force: in (3,2) three places would cut a pair, in (3,3) not.
    assert_eq!(reason(3, 0, 3), refused(10));
    let opened = |t, r, s| Code::open(t, r, s).expect("allowed");
    assert_eq!((opened(3, 0, 1).r(), opened(3, 0, 1).length()), (2, 6));
    assert_eq!(opened(3, 3, 3).length(), 4);
}

#[test]
fn places_are_renumbered() {
    let shortened = |t, r, s| layout(&Code::open(t, r, s).expect("allowed"));
    assert_eq!(shortened(3, 2, 1), [5, 7, 3, 1, 6, 2]);
    assert_eq!(shortened(3, 2, 2), [7, 3, 1, 6, 2]);
    assert_eq!(shortened(4, 2, 3)[..], layout(&open(4, 2))[3..]);
    assert_eq!(shortened(4, 2, 9), [7, 13, 3, 1, 12, 4]);
}

#[test]
fn in_two_steps() {
    let once = Code::open(4, 3, 5).expect("allowed");
    let first = Code::open(4, 3, 2).expect("allowed");
    let then = first.shortened(3).expect("allowed");
    assert_eq!((then.s(), layout(&then)), (5, layout(&once)));
    assert_eq!(first.shortened(4).expect_err("a pair cut"), refused(10));
}

/// At most one codeword is within one place of a word; correction gives it and its place, and
/// is refused with 11, nothing written, exactly where there is none.
#[test]
fn correction_gives_the_codeword_near_where_there_is_one() {
    for code in short_codes() {
        let codewords = codewords(&code);
        assert_eq!(codewords.len(), 1 << code.message_length());
        let n = code.length();
        for word in all_words(n) {
            let near = codewords.iter().filter(|c| distance(c, &word) <= 1);
            let expected = match near.collect::<Vec<_>>()[..] {
                [] => Err(refused(11)),
                [codeword] => Ok((place_between(&word, codeword), codeword.clone())),
                ref several => panic!("{several:?} are near {word:?}"),
            };
            let mut out = vec![7; n + 2];
            let answer = code.correct(&word, &mut out);
            assert_eq!(out.split_off(n), [7, 7]);
            if answer.is_err() {
                assert_eq!(out, vec![7; n], "{word:?}");
            }
            assert_eq!(answer.map(|place| (place, out)), expected, "{word:?}");
        }
    }
}

/// Each codeword has n - s + 1 words within one place, and no word is near two codewords.
#[test]
fn how_many_words_have_no_codeword() {
    let without = |t, r, s| {
        let code = Code::open(t, r, s).expect("allowed");
        let none = |word: &Vec<u8>| code.correct(word, &mut [7; 15]) == Err(refused(11));
        all_words(code.length()).filter(none).count()
    };
    assert_eq!(without(3, 2, 0), 0);
    assert_eq!(without(3, 2, 1), 8);
    assert_eq!(without(3, 2, 2), 8);
    for code in short_codes() {
        let (n, k) = (code.length(), code.message_length());
        let expected = (1 << n) - (1 << k) * (n + 1);
        assert_eq!(without(code.t(), code.r(), code.s()), expected);
    }
}

#[test]
fn messages_are_read_back() {
    for code in short_codes() {
        for message in all_words(code.message_length()) {
            let codeword = super::encode(&code, &message);
            assert_eq!(code.syndrome(&codeword), Ok(0), "{message:?}");
            assert_eq!(code.read_message(&codeword), message);
            assert_eq!(correct(&code, &codeword), (0, codeword.clone()));
        }
    }
}

/// The third place is the only one that makes a codeword with two, and 11 says that none does.
#[test]
fn third_places() {
    for code in short_codes() {
        let n = code.length() as u32;
        for (i, j) in (1..=n).flat_map(|i| (1..=n).map(move |j| (i, j))) {
            let weighs_3 = |k: &u32| {
                let zeros = vec![0; n as usize];
                let triple = [i, j, *k]
                    .iter()
                    .fold(zeros, |w, &p| flipped(&w, p as usize));
                triple.iter().sum::<u8>() == 3 && code.syndrome(&triple) == Ok(0)
            };
            let thirds: Vec<u32> = (1..=n).filter(weighs_3).collect();
            let expected = match thirds[..] {
                _ if i == j => Err(refused(6)),
                [] => Err(refused(11)),
                [third] => Ok(third),
                _ => panic!("{i} and {j} have several: {thirds:?}"),
            };
            assert_eq!(code.third_place(i, j), expected, "{i} {j}");
        }
    }
}

/// 11 comes after 2, 3 and 4, and after 5 and 6. In (3,2) with s = 1 the word 000011 has the
/// syndrome 4, which stands at the place left out; places 1 and 4, once 2 and 5, have 1 as
/// their third.
#[test]
fn the_order_of_11() {
    let code = Code::open(3, 2, 1).expect("allowed");
    let y = word("000011");
    assert_eq!(code.syndrome(&y), Ok(4));
    let correct = |y: &[u8], room: usize| {
        let mut out = vec![7; room];
        let refusal = code.correct(y, &mut out).expect_err("refused");
        assert_eq!(out, vec![7; room], "output touched");
        (refusal.number, refusal.place)
    };
    assert_eq!(correct(&y, 6), (11, 0));
    assert_eq!(correct(&y, 9), (11, 0));
    assert_eq!(correct(&y, 5), (3, 0));
    assert_eq!(correct(&y[1..], 6), (2, 0));
    assert_eq!(correct(&word("0000011"), 7), (2, 0));
    assert_eq!(correct(&word("000211"), 6), (4, 4));
    assert_eq!(code.third_place(1, 4), Err(refused(11)));
    assert_eq!(code.third_place(4, 1), Err(refused(11)));
    assert_eq!(code.third_place(1, 7), Err(refused(5)));
    assert_eq!(code.third_place(0, 0), Err(refused(5)));
    assert_eq!(code.third_place(4, 4), Err(refused(6)));
}

/// The calls do with a word what the whole code does with s zeros and the word, and the layout
/// is the whole code's without its first s places.
#[test]
fn as_in_the_whole_code() {
    for whole in codes() {
        let (t, r) = (whole.t(), whole.r());
        let mut draw = Draw::from_state(7 + 100 * t + r);
        let drawn = (0..20).map(|_| draw.below(whole.message_length()) as u32);
        let some: Vec<u32> = [0, 1].into_iter().chain(drawn).collect();
        let opened: Vec<Code> = some.iter().flat_map(|&s| Code::open(t, r, s)).collect();
        // Where t = 2 a message has one place; every other code opens with s = 1.
        assert!(opened.iter().any(|code| code.s() > 0) || t == 2);
        for code in &opened {
            like_the_whole(code, &whole, &mut draw);
        }
    }
}

fn like_the_whole(code: &Code, whole: &Code, draw: &mut Draw) {
    let s = code.s() as usize;
    let filled = |word: &[u8]| [&vec![0; s], word].concat();
    let first = draw.word(code.length());
    let second = super::encode(code, &draw.word(code.message_length()));

    assert_eq!(super::layout(code), super::layout(whole)[s..]);
    assert_eq!(code.syndrome(&first), whole.syndrome(&filled(&first)));
    assert_eq!(
        whole.read_message(&filled(&second))[s..],
        *code.read_message(&second)
    );
    assert!(!code.read_message(&second).is_empty());
    let both = super::combine(code, &first, &second);
    assert_eq!(
        super::combine(whole, &filled(&first), &filled(&second)),
        filled(&both)
    );
    let inverse = super::invert(code, &first);
    assert_eq!(super::invert(whole, &filled(&first)), filled(&inverse));

    let near = flipped(&second, 1 + draw.below(code.length()));
    for word in [first, second, near] {
        let (place, codeword) = correct(whole, &filled(&word));
        match place {
            0 => assert_eq!(correct(code, &word), (0, word)),
            p if p as usize <= s => {
                assert_eq!(code.correct(&word, &mut filled(&word)), Err(refused(11)));
            }
            p => {
                let (told, written) = accepted(code, |out| code.correct(&word, out));
                assert_eq!((told + code.s(), filled(&written)), (p, codeword));
            }
        }
    }
    let i = 1 + draw.below(code.length()) as u32;
    let j = 1 + draw.below(code.length()) as u32;
    let expected = match whole.third_place(i + code.s(), j + code.s()) {
        Ok(p) if p <= code.s() => Err(refused(11)),
        Ok(p) => Ok(p - code.s()),
        same => same,
    };
    assert_eq!(code.third_place(i, j), expected);
}
