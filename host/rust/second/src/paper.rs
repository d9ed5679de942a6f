//! The example of section VI-C, in the paper's own order of places, which differs from
//! document 01's within parts 1 and 2.

use crate::group::{Element, Group, ZERO};
use crate::{word, Code};

#[rustfmt::skip]
const ARRAY: [[u8; 2]; 15] = [
    [0, 2], [2, 0], [2, 2],
    [3, 3], [1, 1], [3, 1], [1, 3], [3, 2], [1, 2], [2, 3], [2, 1],
    [3, 0], [1, 0], [0, 3], [0, 1],
];
const A: [u8; 11] = [1, 0, 1, 1, 0, 0, 1, 1, 0, 1, 1];
const X: [u8; 15] = [1, 0, 1, 1, 0, 0, 1, 1, 0, 1, 1, 1, 0, 1, 1];
const Y: [u8; 15] = [1, 0, 1, 1, 0, 0, 1, 1, 0, 1, 0, 1, 0, 1, 1];

fn element(components: [u8; 2]) -> Element {
    let mut element = ZERO;
    element[..2].copy_from_slice(&components);
    element
}

fn code() -> Code {
    let images = ARRAY.into_iter().map(element).collect();
    Code::from_images(4, 2, Group::new(0, 2), images)
}

/// The product of the unit vectors of these places, counted from 1 as in the paper.
fn product(code: &Code, places: &[usize]) -> Vec<u8> {
    places.iter().fold(vec![0; 15], |word, place| {
        word::combine(&code.digits, &word, &word::with_ones(15, &[place - 1]))
    })
}

#[test]
fn representations() {
    let code = code();
    let (a, zeros) = (A.to_vec(), [0; 4]);
    assert_eq!(
        product(&code, &[1, 3, 4, 7, 8, 10, 10]),
        [&a[..], &zeros].concat()
    );
    assert_eq!(product(&code, &[1, 3, 4, 7, 8, 10, 12, 14, 14]), Y);
    assert_eq!(product(&code, &[13, 13, 13, 15, 15])[11..], [1, 0, 1, 1]);
}

#[test]
fn coding() {
    let code = code();
    let padded = [&A[..], &[0; 4]].concat();
    assert_eq!(code.image_of(&padded), element([1, 2]));
    assert_eq!(code.group.negate(&element([1, 2])), element([3, 2]));
    let mut out = [7; 15];
    assert_eq!(code.encode(&A, &mut out), Ok(()));
    assert_eq!(out, X);
}

#[test]
fn decoding() {
    let code = code();
    assert_eq!(code.image_of(&Y), element([2, 1]));
    let mut out = [7; 15];
    assert_eq!(code.correct(&Y, &mut out), Ok(11));
    assert_eq!(out, X);
    assert_eq!(code.read_message(&out), A);
}
