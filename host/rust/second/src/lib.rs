//! 1-perfect Z2Z4-additive codes as Borges and Rifà describe them in section VI of "A
//! Characterization of 1-Perfect Additive Codes" (source document 000).
//!
//! This second program is there to be compared with the engine, so it shares no code or table
//! with it: it has only the paper's array, sums over it and searches in it. Which r a t has
//! is told by the paper's table of parameters; element numbers, order of places and refusals
//! are those of document 01, and the largest t is request C-15's.
//!
//! A shortened code has the array without its first s entries, and everything else follows
//! from that array: lengths, places, pairs, and which elements are missing.

#![forbid(unsafe_code)]

pub mod draw;
mod group;
mod layout;
#[cfg(test)]
mod paper;
mod record;
pub mod sheet;
mod word;

pub use record::Record;

use group::{Element, Group, ZERO};
use word::Digit;

/// Why a call was refused, by the number of document 01, 10 and 11 of request C-17, or 24 of C-20.
/// `place` is 0 except for number 4, where it is the lowest place with a byte above 1.
#[derive(Debug, Clone, Copy, PartialEq, Eq)]
pub struct Refusal {
    pub number: u32,
    pub place: u32,
}

impl Refusal {
    fn of(number: u32) -> Refusal {
        Refusal { number, place: 0 }
    }
}

/// An answer as the C calls give it: a refusal is its negated number.
pub fn signed(answer: Result<u32, Refusal>) -> i32 {
    match answer {
        Ok(place) => place as i32,
        Err(refusal) => -(refusal.number as i32),
    }
}

/// A code, opened. Refused calls write nothing; accepted ones write a word at the front.
#[derive(Debug, Clone)]
pub struct Code {
    t: u32,
    r: u32,
    s: u32,
    group: Group,
    /// The image of each unit vector, in the order of places, without those left out.
    images: Vec<Element>,
    /// Read off the array once, to know which places form pairs.
    digits: Vec<Digit>,
}

impl Code {
    /// Opens the code of t and r with the first s places left out; r = 0 means the smallest r
    /// that t has.
    pub fn open(t: u32, r: u32, s: u32) -> Result<Code, Refusal> {
        let r = match r {
            0 => group::smallest_r(t).ok_or(Refusal::of(1))?,
            given => given,
        };
        let group = group::of_code(t, r).ok_or(Refusal::of(1))?;
        let images = layout::images(&group);
        Code::from_images(t, r, group, images).shortened(s)
    }

    /// Opens a whole code as the sheet and the calls for C do, to which r = 0 means r = t.
    pub fn or_hamming(t: u32, r: u32) -> Result<Code, Refusal> {
        Code::open(t, if r == 0 { t } else { r }, 0)
    }

    /// The code of an array that has the paper's four parts, or of such an array without its
    /// first entries; the order within parts 1 and 2 is free.
    fn from_images(t: u32, r: u32, group: Group, images: Vec<Element>) -> Code {
        let digits = word::digits(&group, &images);
        Code {
            t,
            r,
            s: 0,
            group,
            images,
            digits,
        }
    }

    /// The array without its first s entries. A message place has to stay, and a digit has to
    /// begin with the first place that stays: no pair is cut in two.
    pub fn shortened(&self, s: u32) -> Result<Code, Refusal> {
        let left_out = s as usize;
        let begins = |digit: &Digit| digit.first_place() == left_out;
        if left_out >= self.message_length() || !self.digits.iter().any(begins) {
            return Err(Refusal::of(10));
        }
        let images = self.images[left_out..].to_vec();
        let shorter = Code::from_images(self.t, self.r, self.group.clone(), images);
        let s = self.s + s;
        Ok(Code { s, ..shorter })
    }

    pub fn t(&self) -> u32 {
        self.t
    }

    /// r in force, never 0.
    pub fn r(&self) -> u32 {
        self.r
    }

    /// How many message places are left out.
    pub fn s(&self) -> u32 {
        self.s
    }

    /// n - s, the number of places of a word.
    pub fn length(&self) -> usize {
        self.images.len()
    }

    /// n - t - s, the number of places of a message.
    pub fn message_length(&self) -> usize {
        self.length() - self.t as usize
    }

    /// Whether this is a place, and a binary one: the others are halves of pairs.
    pub fn is_binary(&self, place: u32) -> bool {
        let binary = self.index(place).map(Digit::Binary);
        binary.is_ok_and(|digit| self.digits.contains(&digit))
    }

    /// The number of the element at a place.
    pub fn element_number(&self, place: u32) -> Result<u32, Refusal> {
        let index = self.index(place)?;
        Ok(self.group.number(&self.images[index]))
    }

    /// The syndrome of a word, as an element number.
    pub fn syndrome(&self, word: &[u8]) -> Result<u32, Refusal> {
        self.check_word(word)?;
        check_bytes(word)?;
        Ok(self.group.number(&self.image_of(word)))
    }

    /// The coding algorithm, VI-A.
    pub fn encode(&self, message: &[u8], out: &mut [u8]) -> Result<(), Refusal> {
        check_length(message, self.message_length())?;
        self.check_room(out)?;
        check_bytes(message)?;
        let mut codeword = message.to_vec();
        codeword.resize(self.length(), 0);
        // Theorem 31: the components of b are its coefficients at the units z1, .., zr, and
        // these are the images of the last r digits.
        let b = self.group.negate(&self.image_of(&codeword));
        let check = &self.digits[self.digits.len() - self.r as usize..];
        for (digit, mu) in check.iter().zip(b) {
            digit.put(&mut codeword, mu);
        }
        self.write(&codeword, out);
        Ok(())
    }

    /// The decoding algorithm, VI-B. Answers the place that changes, 0 for none; refused with
    /// 11 where that place is left out.
    pub fn correct(&self, word: &[u8], out: &mut [u8]) -> Result<u32, Refusal> {
        self.check_word(word)?;
        self.check_room(out)?;
        check_bytes(word)?;
        let codeword = self.nearest(word)?;
        self.write(&codeword, out);
        Ok(place_of_change(word, &codeword))
    }

    /// first * second
    pub fn combine(&self, first: &[u8], second: &[u8], out: &mut [u8]) -> Result<(), Refusal> {
        self.check_word(first)?;
        self.check_word(second)?;
        self.check_room(out)?;
        check_bytes(first)?;
        check_bytes(second)?;
        self.write(&word::combine(&self.digits, first, second), out);
        Ok(())
    }

    /// The inverse of a word under `*`.
    pub fn invert(&self, word: &[u8], out: &mut [u8]) -> Result<(), Refusal> {
        self.check_word(word)?;
        self.check_room(out)?;
        check_bytes(word)?;
        self.write(&word::invert(&self.digits, word), out);
        Ok(())
    }

    /// The message of a codeword, VI-B step 4; empty when refused or no codeword.
    pub fn read_message<'a>(&self, word: &'a [u8]) -> &'a [u8] {
        match self.syndrome(word) {
            Ok(0) => &word[..self.message_length()],
            _ => &[],
        }
    }

    /// The place that makes a codeword of weight 3 with i and j. In the whole code the word
    /// with 1 at i and j is within one place of a codeword, which so has weight 1, 2 or 3; the
    /// minimum distance leaves only 3, so correction adds the third place, or is refused with
    /// 11 where that is left out.
    pub fn third_place(&self, i: u32, j: u32) -> Result<u32, Refusal> {
        let places = [self.index(i)?, self.index(j)?];
        if i == j {
            return Err(Refusal::of(6));
        }
        let two = word::with_ones(self.length(), &places);
        Ok(place_of_change(&two, &self.nearest(&two)?))
    }

    /// The sum of digit times image: the paper's representation of the word, with the digit
    /// of a pair standing at its second place.
    fn image_of(&self, word: &[u8]) -> Element {
        let term = |digit: &Digit| (digit.value(word), self.images[digit.place_of_1()]);
        self.group.sum(self.digits.iter().map(term))
    }

    /// VI-B, steps 1 to 3: the codeword within one place of y. The paper's array has every
    /// element but zero. Where it is shortened, a syndrome may be missing from it; the digit
    /// to change is then one of those left out, and no codeword is near. A pair has both its
    /// images in the array or neither, so it does not matter which half would change.
    fn nearest(&self, y: &[u8]) -> Result<Vec<u8>, Refusal> {
        let syndrome = self.image_of(y);
        if syndrome == ZERO {
            return Ok(y.to_vec());
        }
        let found = self.images.iter().position(|image| *image == syndrome);
        let j = found.ok_or(Refusal::of(11))?;
        let e_j = word::with_ones(self.length(), &[j]);
        let inverse = word::invert(&self.digits, &e_j);
        Ok(word::combine(&self.digits, y, &inverse))
    }

    fn write(&self, word: &[u8], out: &mut [u8]) {
        out[..self.length()].copy_from_slice(word);
    }

    fn index(&self, place: u32) -> Result<usize, Refusal> {
        let place = place as usize;
        if (1..=self.length()).contains(&place) {
            Ok(place - 1)
        } else {
            Err(Refusal::of(5))
        }
    }

    fn check_word(&self, word: &[u8]) -> Result<(), Refusal> {
        check_length(word, self.length())
    }

    fn check_room(&self, out: &[u8]) -> Result<(), Refusal> {
        if out.len() < self.length() {
            return Err(Refusal::of(3));
        }
        Ok(())
    }
}

/// The first place where the words differ, counted from 1; 0 if they are equal.
fn place_of_change(before: &[u8], after: &[u8]) -> u32 {
    let index = before.iter().zip(after).position(|(b, a)| b != a);
    index.map_or(0, |index| index as u32 + 1)
}

fn check_length(word: &[u8], length: usize) -> Result<(), Refusal> {
    if word.len() != length {
        return Err(Refusal::of(2));
    }
    Ok(())
}

fn check_bytes(word: &[u8]) -> Result<(), Refusal> {
    match word.iter().position(|&byte| byte > 1) {
        Some(index) => Err(Refusal {
            number: 4,
            place: index as u32 + 1,
        }),
        None => Ok(()),
    }
}
