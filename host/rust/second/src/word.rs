//! The paper's operation `*` on words: binary places modulo 2, pairs modulo 4 through the
//! Gray map.
//!
//! Assumes words of the code's length, each byte 0 or 1; the callers have refused all
//! others. Places are indexed from 0 here.

use crate::group::{Element, Group};

/// The two places of a pair for each of its digits.
const GRAY: [[u8; 2]; 4] = [[0, 0], [0, 1], [1, 1], [1, 0]];

/// Where a digit of a word stands: a binary place, or the two places of a pair.
#[derive(Clone, Copy, Debug, PartialEq)]
pub enum Digit {
    Binary(usize),
    Pair(usize, usize),
}

impl Digit {
    pub fn first_place(self) -> usize {
        match self {
            Digit::Binary(place) => place,
            Digit::Pair(first, _) => first,
        }
    }

    /// The place whose unit vector has the value 1 as this digit.
    pub fn place_of_1(self) -> usize {
        match self {
            Digit::Binary(place) => place,
            Digit::Pair(_, second) => second,
        }
    }

    pub fn value(self, word: &[u8]) -> u8 {
        match self {
            Digit::Binary(place) => word[place],
            Digit::Pair(first, second) => {
                let places = [word[first], word[second]];
                let value = GRAY.iter().position(|&gray| gray == places);
                value.expect("bytes are 0 or 1") as u8
            }
        }
    }

    /// Writes a value as this digit, reduced modulo 2 or 4.
    pub fn put(self, word: &mut [u8], value: u8) {
        match self {
            Digit::Binary(place) => word[place] = value % 2,
            Digit::Pair(first, second) => {
                [word[first], word[second]] = GRAY[usize::from(value % 4)];
            }
        }
    }
}

/// The digits of a word in the order of places. An image of order 2 makes a binary place;
/// one of order 4 starts a pair, whose second place has the inverse image.
pub fn digits(group: &Group, images: &[Element]) -> Vec<Digit> {
    let mut digits = Vec::new();
    let mut place = 0;
    while place < images.len() {
        if group.has_order_2(&images[place]) {
            digits.push(Digit::Binary(place));
            place += 1;
        } else {
            digits.push(Digit::Pair(place, place + 1));
            place += 2;
        }
    }
    digits
}

/// first * second
pub fn combine(digits: &[Digit], first: &[u8], second: &[u8]) -> Vec<u8> {
    let mut product = vec![0; first.len()];
    for digit in digits {
        digit.put(&mut product, digit.value(first) + digit.value(second));
    }
    product
}

/// The word whose combination with this one is zero.
pub fn invert(digits: &[Digit], word: &[u8]) -> Vec<u8> {
    let mut inverse = vec![0; word.len()];
    for digit in digits {
        digit.put(&mut inverse, 4 - digit.value(word));
    }
    inverse
}

/// The word with 1 at these places and 0 elsewhere.
pub fn with_ones(length: usize, places: &[usize]) -> Vec<u8> {
    let mut word = vec![0; length];
    for &place in places {
        word[place] = 1;
    }
    word
}
