//! The answers that z2z4.h gives each outcome, and NULL with length 0.

use second_c::{second_combine, second_correct, second_encode, second_third_place};
use std::ptr::{null, null_mut};

const WORD: [u8; 7] = [0, 0, 1, 1, 1, 1, 0];
const BAD: [u8; 7] = [0, 0, 1, 2, 1, 1, 0];

fn correct(t: u32, r: u32, word: &[u8], out: &mut [u8]) -> i32 {
    unsafe { second_correct(t, r, word.as_ptr(), word.len(), out.as_mut_ptr(), out.len()) }
}

#[test]
fn accepted_and_refused() {
    let mut out = [7; 8];
    assert_eq!(correct(3, 2, &WORD, &mut out), 3);
    assert_eq!(out, [0, 0, 0, 1, 1, 1, 0, 7]);
    assert_eq!(correct(5, 2, &WORD, &mut out), -1);
    assert_eq!(correct(u32::MAX, 13, &WORD, &mut out), -1);
    assert_eq!(correct(3, 2, &WORD[1..], &mut out), -2);
    assert_eq!(correct(3, 2, &WORD, &mut out[..6]), -3);
    assert_eq!(correct(3, 2, &BAD, &mut out), -4);
    assert_eq!(out, [0, 0, 0, 1, 1, 1, 0, 7]);
    unsafe {
        assert_eq!(second_third_place(3, 2, 1, 2), 5);
        assert_eq!(second_third_place(3, 2, 0, 2), -5);
        assert_eq!(second_third_place(3, 2, 2, 2), -6);
    }
}

/// The codes that are kept, with the last of them, and those that are not.
#[test]
fn codes_beside_the_limit() {
    let (mut word, mut out) = ([0; 4095], [7; 4096]);
    word[4094] = 1;
    for r in [6, 7, 12, 0] {
        assert_eq!(correct(12, r, &word, &mut out), 4095);
        assert!(out[..4095] == [0; 4095] && out[4095] == 7);
        assert_eq!(correct(12, r, &word[1..], &mut out), -2);
    }
    assert_eq!(correct(11, 6, &word[2048..], &mut out), 2047);
    for (t, r) in [(11, 5), (12, 5), (12, 13), (13, 0), (13, 7), (13, 13)] {
        assert_eq!(correct(t, r, &word, &mut out), -1);
    }
}

#[test]
fn null_with_length_0() {
    let (word, out) = (WORD.as_ptr(), null_mut());
    unsafe {
        assert_eq!(second_encode(3, 2, null(), 0, out, 0), -2);
        assert_eq!(second_encode(3, 2, word, 4, out, 0), -3);
        assert_eq!(second_correct(3, 2, word, 7, out, 0), -3);
        assert_eq!(second_combine(3, 2, word, 7, null(), 0, out, 0), -2);
        assert_eq!(second_combine(3, 2, null(), 0, word, 7, out, 0), -2);
        assert_eq!(second_combine(3, 2, word, 7, word, 7, out, 0), -3);
    }
}
