//! Correction in two steps (request C-20): asking for the place, and committing one.

use super::{all_words, codes, encode, flipped, word};
use second::draw::Draw;
use second::{Record, Refusal};

const FULL: u32 = u32::MAX;

fn refused<T>(number: u32) -> Result<T, Refusal> {
    Err(Refusal { number, place: 0 })
}

/// Commits a claimed place and gives the word back; a refused commit leaves it.
fn commit(record: &Record, place: u32, y: &[u8]) -> Result<(u32, Record, Vec<u8>), Refusal> {
    let mut own = y.to_vec();
    let answer = record.commit(place, &mut own);
    assert!(answer.is_ok() || own == y, "word touched");
    answer.map(|(place, counted)| (place, counted, own))
}

/// The word with a place flipped; place 0 flips none.
fn with(y: &[u8], place: u32) -> Vec<u8> {
    match place {
        0 => y.to_vec(),
        place => flipped(y, place as usize),
    }
}

/// A record with no two counts alike.
fn record(t: u32, r: u32, s: u32) -> Record {
    Record {
        words: 9,
        clean: 2,
        corrected_binary: 3,
        corrected_pairs: 4,
        ..Record::fresh(t, r, s)
    }
}

/// As `record`, and full.
fn full(t: u32, r: u32, s: u32) -> Record {
    Record {
        words: FULL,
        clean: FULL - 7,
        ..record(t, r, s)
    }
}

/// Codes of at most eight places: t, r and s.
const SHORT: [(u32, u32, u32); 9] = [
    (2, 1, 0),
    (2, 2, 0),
    (3, 2, 0),
    (3, 2, 1),
    (3, 2, 2),
    (3, 3, 2),
    (4, 2, 7),
    (4, 3, 7),
    (4, 4, 8),
];

/// Every word and every claim of the short codes. The right place is the one that makes a
/// codeword of the word; with a shortened code there may be none.
#[test]
fn only_the_place_that_makes_a_codeword_is_taken() {
    for (t, r, s) in SHORT {
        let record = record(t, r, s);
        let code = record.code().expect("fit");
        let n = code.length() as u32;
        for y in all_words(code.length()) {
            let makes_one = |place: &u32| code.syndrome(&with(&y, *place)) == Ok(0);
            let mut right = (0..=n).filter(makes_one);
            let asked = right.next().map_or(refused(11), Ok);
            assert_eq!((record.ask(&y), right.next()), (asked, None), "{y:?}");
            for claimed in (0..=n + 1).chain([FULL]) {
                let expected = asked.and_then(|place| match claimed == place {
                    true => Ok((place, record.counted(&code, place)?, with(&y, place))),
                    false => refused(24),
                });
                assert_eq!(commit(&record, claimed, &y), expected, "{claimed} {y:?}");
            }
        }
    }
}

/// A full record can be asked. Of its commits the right one is refused with 23, the others
/// with 24.
#[test]
fn full_records() {
    for (t, r, s) in SHORT {
        let (record, full) = (record(t, r, s), full(t, r, s));
        let n = record.code().expect("fit").length();
        for y in all_words(n) {
            assert_eq!(full.ask(&y), record.ask(&y));
            for claimed in (0..=n as u32 + 1).chain([FULL]) {
                let expected = commit(&record, claimed, &y).and(refused(23));
                assert_eq!(commit(&full, claimed, &y), expected, "{claimed} {y:?}");
            }
        }
    }
}

/// A correction does what asking and then committing do, and is refused where one of them is.
#[test]
fn in_turn_they_are_a_correction() {
    let records = [(3, 2, 0), (3, 2, 1), (3, 2, 2)].map(|(t, r, s)| record(t, r, s));
    let closed = Record::default();
    let others = [closed, record(3, 0, 0), record(3, 2, 3), full(3, 2, 1)];
    let short = ["", "2", "00011", "01110", "000000", "000001"];
    let long = [
        "000011", "200012", "0011110", "0001110", "0101310", "00011100",
    ];
    for record in records.into_iter().chain(others) {
        for y in [short, long].concat().into_iter().map(word) {
            let mut out = vec![7; 9];
            let single = record.correct(&y, &mut out);
            let asked = record.ask(&y);
            let in_turn = asked.and_then(|place| commit(&record, place, &y));
            let (told, written) = match in_turn {
                Ok((place, counted, codeword)) => (Ok((place, counted)), codeword),
                Err(refusal) => (Err(refusal), vec![]),
            };
            assert_eq!(single, told, "{record:?} {y:?}");
            let kept = &[7; 9][written.len()..];
            assert_eq!(out, [&written, kept].concat(), "{record:?} {y:?}");
        }
    }
}

/// The second claim of a place is wrong, since the word is a codeword by then; 0 is right again and again.
#[test]
fn a_place_once_and_0_as_often_as_it_is_committed() {
    let record = record(3, 2, 0);
    let (place, once, codeword) = commit(&record, 3, &word("0011110")).expect("right");
    assert_eq!((place, &codeword), (3, &word("0001110")));
    assert_eq!(commit(&once, 3, &codeword), refused(24));
    let mut last = once;
    for times in 1..=3 {
        let (place, counted, same) = commit(&last, 0, &codeword).expect("right");
        assert_eq!((place, &same), (0, &codeword));
        let (words, clean) = (once.words + times, once.clean + times);
        let expected = Record {
            words,
            clean,
            ..once
        };
        assert_eq!(counted, expected);
        last = counted;
    }
}

/// Asking is refused with 21, 22, 10, 2, 4 and 11, and committing with these and with 24 and 23:
/// the first that applies. The place that is told with 4 is no claim.
#[test]
fn the_order_of_the_reasons() {
    let last = full(3, 2, 1);
    for (record, y, number, place) in [
        (Record { t: 0, s: 3, ..last }, "2", 21, 0),
        (Record { r: 0, s: 3, ..last }, "2", 22, 0),
        (Record { s: 3, ..last }, "2", 10, 0),
        (last, "2", 2, 0),
        (last, "0002110", 2, 0),
        (last, "000213", 4, 4),
        (last, "000011", 11, 0),
    ] {
        let expected = Refusal { number, place };
        assert_eq!(record.ask(&word(y)), Err(expected), "{y}");
        for claimed in [0, 1, 4, 6, 7, FULL] {
            assert_eq!(commit(&record, claimed, &word(y)), Err(expected), "{y}");
        }
    }
    let y = word("000001");
    assert_eq!(last.ask(&y), Ok(6));
    for claimed in [0, 1, 5, 7, FULL] {
        assert_eq!(commit(&last, claimed, &y), refused(24));
    }
    assert_eq!(commit(&last, 6, &y), refused(23));
}

/// Drawn codewords of every code, with a place flipped and committed.
#[test]
fn every_code() {
    for code in codes() {
        let mut draw = Draw::from_state(20 + 100 * code.t() + code.r());
        let record = Record::of(&code);
        let codeword = encode(&code, &draw.word(code.message_length()));
        let place = 1 + draw.below(code.length()) as u32;
        let y = flipped(&codeword, place as usize);
        assert_eq!((record.ask(&codeword), record.ask(&y)), (Ok(0), Ok(place)));
        let expected = record.counted(&code, place).expect("not full");
        assert_eq!(commit(&record, place, &y), Ok((place, expected, codeword)));
        assert_eq!(commit(&record, place - 1, &y), refused(24));
    }
}
