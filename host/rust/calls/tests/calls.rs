//! The safe calls, on cases of document 01, and what they pass for buffers of no bytes.

use calls::{combine, correct, encode, third_place};

const NOT_ADMITTED: i32 = -1;
const WRONG_LENGTH: i32 = -2;
const SHORT_OUTPUT: i32 = -3;
const BAD_BYTE: i32 = -4;

#[test]
fn cases_of_3_2() {
    let mut out = [7; 9];
    assert_eq!(encode(3, 2, &[1, 0, 0, 0][..], &mut out[..]), 0);
    assert_eq!(out, [1, 0, 0, 0, 0, 1, 1, 7, 7]);
    assert_eq!(correct(3, 2, &[0, 0, 1, 1, 1, 1, 0][..], &mut out[..]), 3);
    assert_eq!(out, [0, 0, 0, 1, 1, 1, 0, 7, 7]);
    let (first, second) = ([0, 0, 0, 1, 1, 1, 0], [0, 0, 1, 0, 1, 0, 1]);
    assert_eq!(combine(3, 2, &first[..], &second[..], &mut out[..]), 0);
    assert_eq!(out, [0, 0, 0, 0, 0, 0, 0, 7, 7]);
    assert_eq!(combine(3, 2, &first[..], &first[..], &mut out[..]), 0);
    assert_eq!(out, [0, 0, 1, 1, 0, 1, 1, 7, 7]);
    assert_eq!(third_place(3, 2, 3, 6), 2);
    assert_eq!(third_place(3, 2, 8, 1), -5);
    assert_eq!(third_place(3, 2, 4, 4), -6);
}

/// Words and places as long and as high as they come, and what is beyond.
#[test]
fn the_longest_codes() {
    let (message, mut out) = ([0; 4083], [7; 4097]);
    for r in [6, 12, 0] {
        assert_eq!(encode(12, r, &message[..], &mut out[..]), 0);
        assert!(out[..4095] == [0; 4095] && out[4095..] == [7, 7]);
        let mut word = [0; 4095];
        word[4094] = 1;
        assert_eq!(correct(12, r, &word[..], &mut out[..]), 4095);
        assert!(out[..4095] == [0; 4095] && out[4095..] == [7, 7]);
        assert_eq!(
            combine(12, r, &word[..], &out[..4095], &mut [7; 4095][..]),
            0
        );
        assert!(third_place(12, r, 4095, 4094) > 0);
        assert_eq!(third_place(12, r, 4096, 4094), -5);
    }
    for (t, r) in [(11, 5), (13, 7), (13, 0)] {
        assert_eq!(encode(t, r, &message[..], &mut out[..]), NOT_ADMITTED);
    }
}

/// Each buffer in turn empty or NULL. What is refused first tells that the length passed
/// is 0, and that the others are passed as they are.
#[test]
fn buffers_of_no_bytes() {
    let (message, word, bad) = ([1; 4], [1; 7], [2; 7]);
    let mut out = [7; 7];
    for nothing in [None, Some(&[][..])] {
        assert_eq!(encode(3, 2, nothing, &mut out[..]), WRONG_LENGTH);
        assert_eq!(correct(3, 2, nothing, &mut out[..]), WRONG_LENGTH);
        assert_eq!(
            combine(3, 2, nothing, &word[..], &mut out[..]),
            WRONG_LENGTH
        );
        assert_eq!(
            combine(3, 2, &word[..], nothing, &mut out[..]),
            WRONG_LENGTH
        );
        assert_eq!(correct(5, 2, nothing, &mut out[..]), NOT_ADMITTED);
    }
    for null in [true, false] {
        let nothing = || if null { None } else { Some(&mut [][..]) };
        assert_eq!(encode(3, 2, &message[..], nothing()), SHORT_OUTPUT);
        assert_eq!(correct(3, 2, &bad[..], nothing()), SHORT_OUTPUT);
        assert_eq!(combine(3, 2, &word[..], &word[..], nothing()), SHORT_OUTPUT);
    }
    assert_eq!(combine(3, 2, None, None, None), WRONG_LENGTH);
    assert_eq!(encode(0, 0, None, None), NOT_ADMITTED);
    assert_eq!(correct(3, 2, &bad[..], &mut out[..]), BAD_BYTE);
    assert_eq!(out, [7; 7]);
}
