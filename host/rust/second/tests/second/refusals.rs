//! Refusals in their order, in (3,2): n = 7, messages of 4 places. Where several reasons
//! apply the first in document 01's order is given, and no output is touched.

use super::{open, word};
use second::{Code, Refusal};

fn reason<T: std::fmt::Debug>(answer: Result<T, Refusal>) -> (u32, u32) {
    let refusal = answer.expect_err("refused");
    (refusal.number, refusal.place)
}

/// The refusal of a call into an output of `room` bytes, all kept.
fn refused<T: std::fmt::Debug>(
    room: usize,
    call: impl FnOnce(&mut [u8]) -> Result<T, Refusal>,
) -> (u32, u32) {
    let mut out = vec![7; room];
    let reason = reason(call(&mut out));
    assert_eq!(out, vec![7; room], "output touched");
    reason
}

const GOOD: &str = "0001110";
/// Bytes above 1 at places 3 and 5.
const BAD: &str = "0020910";

#[test]
fn opening() {
    for (t, r) in [
        (1, 1),
        (5, 2),
        (4, 5),
        (0, 0),
        (1, 0),
        (0, 2),
        (2, 3),
        (9, 4),
        (11, 5),
        (12, 5),
        (12, 13),
        (13, 0),
        (13, 6),
        (13, 7),
        (13, 13),
        (14, 7),
        (u32::MAX, 0),
        (u32::MAX, u32::MAX),
        (12, u32::MAX),
        (12, 1 << 31),
    ] {
        assert_eq!(reason(Code::open(t, r, 0)), (1, 0), "({t}, {r})");
    }
}

#[test]
fn encoding() {
    let code = open(3, 2);
    let encode = |message: &str, room| refused(room, |out| code.encode(&word(message), out));
    assert_eq!(encode("092", 6), (2, 0));
    assert_eq!(encode("092", 9), (2, 0));
    assert_eq!(encode("", 9), (2, 0));
    assert_eq!(encode("00000", 9), (2, 0));
    assert_eq!(encode("0920", 6), (3, 0));
    assert_eq!(encode("0000", 0), (3, 0));
    assert_eq!(encode("0920", 9), (4, 2));
    assert_eq!(encode("0002", 7), (4, 4));
}

#[test]
fn correction_and_inverse() {
    let code = open(3, 2);
    for (y, room, expected) in [
        ("000111", 9, (2, 0)),
        ("00011100", 9, (2, 0)),
        ("", 0, (2, 0)),
        ("002091", 6, (2, 0)),
        (BAD, 6, (3, 0)),
        (GOOD, 6, (3, 0)),
        (BAD, 7, (4, 3)),
        (BAD, 9, (4, 3)),
        ("2001110", 9, (4, 1)),
        ("0001112", 9, (4, 7)),
    ] {
        assert_eq!(
            refused(room, |out| code.correct(&word(y), out)),
            expected,
            "{y}"
        );
        assert_eq!(
            refused(room, |out| code.invert(&word(y), out)),
            expected,
            "{y}"
        );
    }
}

#[test]
fn combining() {
    let code = open(3, 2);
    let late = "0000002";
    for (first, second, room, expected) in [
        ("002", BAD, 6, (2, 0)),
        (BAD, "002", 6, (2, 0)),
        (GOOD, "00011101", 9, (2, 0)),
        (BAD, BAD, 6, (3, 0)),
        (GOOD, GOOD, 0, (3, 0)),
        (late, BAD, 9, (4, 7)),
        (BAD, late, 9, (4, 3)),
        (GOOD, BAD, 7, (4, 3)),
    ] {
        let call = |out: &mut [u8]| code.combine(&word(first), &word(second), out);
        assert_eq!(refused(room, call), expected, "{first} {second}");
    }
}

#[test]
fn syndrome() {
    let code = open(3, 2);
    assert_eq!(reason(code.syndrome(&word("002091"))), (2, 0));
    assert_eq!(reason(code.syndrome(&[])), (2, 0));
    assert_eq!(reason(code.syndrome(&word(BAD))), (4, 3));
    assert_eq!(reason(code.syndrome(&[0, 0, 0, 0, 0, 0, 255])), (4, 7));
}

#[test]
fn places() {
    let code = open(3, 2);
    for outside in [0, 8, u32::MAX] {
        assert_eq!(reason(code.element_number(outside)), (5, 0));
        assert_eq!(reason(code.third_place(outside, 1)), (5, 0));
        assert_eq!(reason(code.third_place(1, outside)), (5, 0));
        assert_eq!(reason(code.third_place(outside, outside)), (5, 0));
    }
    assert_eq!(reason(code.third_place(1, 1)), (6, 0));
    assert_eq!(reason(code.third_place(7, 7)), (6, 0));
}
