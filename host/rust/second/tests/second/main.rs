//! Tests of the public calls, and what they share: words written as in document 01, and
//! outputs set to 7 before each call.

mod array;
mod cases;
mod commits;
mod expected;
mod large;
mod record;
mod refusals;
mod sheet;
mod shortened;
mod small;

use second::{Code, Refusal};

fn open(t: u32, r: u32) -> Code {
    Code::open(t, r, 0).expect("admitted")
}

/// Every code that opens with r given, by rising t, then r.
fn codes() -> Vec<Code> {
    let pairs = (0..=14).flat_map(|t| (1..=14).map(move |r| (t, r)));
    pairs
        .filter_map(|(t, r)| Code::open(t, r, 0).ok())
        .collect()
}

/// The element numbers of all places.
fn layout(code: &Code) -> Vec<u32> {
    let places = 1..=code.length() as u32;
    let number = |place| code.element_number(place).expect("a place");
    places.map(number).collect()
}

/// A word from its places as document 01 writes them.
fn word(places: &str) -> Vec<u8> {
    places.bytes().map(|place| place - b'0').collect()
}

fn all_words(length: usize) -> impl Iterator<Item = Vec<u8>> {
    (0..1u32 << length).map(move |bits| (0..length).map(|i| (bits >> i & 1) as u8).collect())
}

/// The word with one place, counted from 1, flipped.
fn flipped(word: &[u8], place: usize) -> Vec<u8> {
    let mut flipped = word.to_vec();
    flipped[place - 1] ^= 1;
    flipped
}

/// Makes a call into n + 2 bytes; it has to be accepted and to keep the last two. Gives the
/// answer and the word written.
fn accepted<T, F>(code: &Code, call: F) -> (T, Vec<u8>)
where
    F: FnOnce(&mut [u8]) -> Result<T, Refusal>,
{
    let n = code.length();
    let mut out = vec![7; n + 2];
    let answer = call(&mut out).unwrap_or_else(|refusal| panic!("{refusal:?}"));
    assert_eq!(out.split_off(n), [7, 7], "bytes after the first n");
    (answer, out)
}

fn encode(code: &Code, message: &[u8]) -> Vec<u8> {
    accepted(code, |out| code.encode(message, out)).1
}

fn correct(code: &Code, word: &[u8]) -> (u32, Vec<u8>) {
    accepted(code, |out| code.correct(word, out))
}

fn combine(code: &Code, first: &[u8], second: &[u8]) -> Vec<u8> {
    accepted(code, |out| code.combine(first, second, out)).1
}

fn invert(code: &Code, word: &[u8]) -> Vec<u8> {
    accepted(code, |out| code.invert(word, out)).1
}
