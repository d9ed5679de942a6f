//! Records: which are refused and why, what an accepted correction counts, and that a full
//! record is refused after all else.

use super::{codes, combine, correct, flipped, word};
use second::{Code, Record};

const FULL: u32 = u32::MAX;

/// (3,2) with these counts: words, clean, in binary places, in pairs.
fn counted(counts: [u32; 4]) -> Record {
    let [words, clean, corrected_binary, corrected_pairs] = counts;
    Record {
        words,
        clean,
        corrected_binary,
        corrected_pairs,
        ..Record::fresh(3, 2, 0)
    }
}

/// Why a record is refused, 0 where it is not.
fn reason(record: Record) -> u32 {
    match record.code() {
        Ok(code) => {
            let opened = (code.t(), code.r(), code.s());
            assert_eq!(opened, (record.t, record.r, record.s));
            0
        }
        Err(refusal) => {
            assert_eq!(refusal.place, 0);
            refusal.number
        }
    }
}

/// A record that opening would give is taken, and one with refused parameters is not.
#[test]
fn parameters() {
    for code in codes() {
        let record = Record::fresh(code.t(), code.r(), 0);
        assert_eq!((reason(record), Record::of(&code)), (0, record));
    }
    for (t, r, s, expected) in [
        (3, 2, 1, 0),
        (3, 2, 3, 10),
        (3, 2, FULL, 10),
        (2, 2, 1, 10),
        (1, 1, 0, 22),
        (2, 1, 1, 10),
        (5, 2, 0, 22),
        (4, 5, 0, 22),
        (11, 6, 0, 0),
        (11, 5, 0, 22),
        (12, 6, 4_082, 10),
        (12, 12, 4_082, 0),
        (12, 13, 0, 22),
        (13, 7, 0, 22),
        (13, 13, 0, 22),
        (FULL, FULL, 0, 22),
        (0, 0, 0, 21),
        (0, 2, 0, 21),
    ] {
        assert_eq!(reason(Record::fresh(t, r, s)), expected, "({t}, {r}) {s}");
    }
}

/// Opening turns r = 0 into the smallest r; a record that still has it was not opened.
#[test]
fn no_r() {
    let smallest = [1, 2, 2, 3, 3, 4, 4, 5, 5, 6, 6];
    for (t, r) in (2..).zip(smallest) {
        let code = Code::open(t, 0, 0).expect("t has an r");
        assert_eq!(Record::of(&code), Record::fresh(t, r, 0));
        let below = (1..r).find(|&r| Code::open(t, r, 0).is_ok());
        assert_eq!(below, None, "{t}");
    }
    let shortened = Code::open(5, 0, 1).expect("s is allowed");
    assert_eq!(Record::of(&shortened), Record::fresh(5, 3, 1));
    for t in 1..=13 {
        assert_eq!(reason(Record::fresh(t, 0, 0)), 22, "{t}");
    }
}

/// The sum is that of whole numbers: in the last three it would have to wrap.
#[test]
fn counts_that_add_up() {
    for counts in [[1, 1, 0, 0], [1, 0, 1, 0], [1, 0, 0, 1], [9, 2, 3, 4]] {
        assert_eq!(reason(counted(counts)), 0, "{counts:?}");
    }
    for counts in [[FULL, FULL, 0, 0], [FULL, 2, FULL - 5, 3]] {
        assert_eq!(reason(counted(counts)), 0, "{counts:?}");
    }
    for counts in [[1, 0, 0, 0], [0, 1, 0, 0], [0, 0, 1, 0], [0, 0, 0, 1]] {
        assert_eq!(reason(counted(counts)), 22, "{counts:?}");
    }
    for counts in [[0, FULL, 1, 0], [1, FULL, 1, 1], [FULL, FULL, FULL, 1]] {
        assert_eq!(reason(counted(counts)), 22, "{counts:?}");
    }
}

#[test]
fn the_order_of_a_records_reasons() {
    let unfit = |t, r, s| Record {
        words: 1,
        ..Record::fresh(t, r, s)
    };
    assert_eq!(reason(unfit(0, 0, 0)), 21);
    assert_eq!(reason(unfit(0, 2, 3)), 21);
    assert_eq!(reason(unfit(3, 2, 3)), 22);
    assert_eq!(reason(Record::fresh(5, 2, FULL)), 22);
    assert_eq!(reason(Record::fresh(3, 0, FULL)), 22);
}

/// Only at a binary place a single 1 combined with itself makes zero; in a pair it makes 2.
#[test]
fn kinds_of_places() {
    let shortened = [(3, 2, 1), (4, 3, 5), (5, 3, 2)];
    let shortened = shortened.map(|(t, r, s)| Code::open(t, r, s).expect("allowed"));
    for code in codes().into_iter().chain(shortened) {
        let zeros = vec![0; code.length()];
        for place in 1..=code.length() {
            let one = flipped(&zeros, place);
            let is_binary = combine(&code, &one, &one) == zeros;
            assert_eq!(code.is_binary(place as u32), is_binary, "{place}");
        }
        for outside in [0, code.length() as u32 + 1, FULL] {
            assert!(!code.is_binary(outside), "{outside}");
        }
    }
}

/// In (3,2) with s = 1 the places are one of part 1, a pair, a unit and a pair.
#[test]
fn each_kind_is_counted() {
    let code = Code::open(3, 2, 1).expect("allowed");
    let mut record = Record::of(&code);
    for place in [0, 1, 2, 2, 3, 4, 5, 6, 0, 0] {
        record = record.counted(&code, place).expect("not full");
    }
    let expected = Record {
        s: 1,
        ..counted([10, 3, 2, 5])
    };
    assert_eq!(record, expected);
}

/// A correction into `room` bytes, which a refused one keeps.
fn corrected(record: Record, y: &str, room: usize) -> Result<(u32, Record), (u32, u32)> {
    let mut out = vec![7; room];
    let answer = record.correct(&word(y), &mut out);
    match answer {
        Ok(_) => assert_eq!(out, correct(&record.code().expect("fit"), &word(y)).1),
        Err(_) => assert_eq!(out, vec![7; room], "output touched"),
    }
    answer.map_err(|refusal| (refusal.number, refusal.place))
}

#[test]
fn corrections_count() {
    let before = counted([6, 1, 2, 3]);
    for (y, place, after) in [
        ("0001110", 0, [7, 2, 2, 3]),
        ("0000011", 1, [7, 1, 3, 3]),
        ("0011110", 3, [7, 1, 2, 4]),
    ] {
        let expected = Ok((place, counted(after)));
        assert_eq!(corrected(before, y, 7), expected, "{y}");
    }
}

/// Words at one less than full are counted once more.
#[test]
fn full_records() {
    let [last, full] = [[FULL - 1, 1, FULL - 2, 0], [FULL, 1, FULL - 1, 0]].map(counted);
    assert_eq!(corrected(last, "0000011", 7), Ok((1, full)));
    for y in ["0001110", "0000011", "0011110"] {
        assert_eq!(corrected(full, y, 7), Err((23, 0)), "{y}");
    }
}

/// A full record is refused for every other reason first: its own, and those of the call.
#[test]
fn full_comes_last() {
    let full = Record {
        s: 1,
        ..counted([FULL, 0, 0, FULL])
    };
    for (record, number) in [
        (Record { t: 0, ..full }, 21),
        (Record { clean: 1, ..full }, 22),
        (Record { s: 3, ..full }, 10),
    ] {
        assert_eq!(corrected(record, "000000", 6), Err((number, 0)));
    }
    assert_eq!(corrected(full, "00200", 5), Err((2, 0)));
    assert_eq!(corrected(full, "002000", 5), Err((3, 0)));
    assert_eq!(corrected(full, "002000", 6), Err((4, 3)));
    assert_eq!(corrected(full, "000011", 6), Err((11, 0)));
    assert_eq!(corrected(full, "000000", 6), Err((23, 0)));
}
