//! The second program behind the prototypes of z2z4.h, with `second_` for `z2z4_`: answers
//! as there, a refusal being its negated number and the place of a bad byte left out.
//!
//! Each code is opened once and kept: opening lists a whole group, and the calls that these
//! are compared with come by the million.
//!
//! # Safety
//! As in z2z4.h: each pointer is to as many bytes as the length after it says, and may be
//! NULL where that is 0; `out` overlaps no other buffer.

use second::{Code, Refusal};
use std::slice;
use std::sync::OnceLock;

type Opened = OnceLock<Result<Code, Refusal>>;

/// By t, then r as it is given, up to 12.
static CODES: [[Opened; 13]; 13] = [const { [const { OnceLock::new() }; 13] }; 13];

fn answer(t: u32, r: u32, call: impl FnOnce(&Code) -> Result<u32, Refusal>) -> i32 {
    let row = CODES.get(t as usize);
    let answer = match row.and_then(|row| row.get(r as usize)) {
        Some(kept) => match kept.get_or_init(|| Code::or_hamming(t, r)) {
            Ok(code) => call(code),
            Err(refusal) => Err(*refusal),
        },
        None => Code::or_hamming(t, r).and_then(|code| call(&code)),
    };
    second::signed(answer)
}

/// A slice may not be made from NULL, even an empty one.
unsafe fn read<'a>(bytes: *const u8, length: usize) -> &'a [u8] {
    if length == 0 {
        return &[];
    }
    slice::from_raw_parts(bytes, length)
}

unsafe fn write<'a>(bytes: *mut u8, length: usize) -> &'a mut [u8] {
    if length == 0 {
        return &mut [];
    }
    slice::from_raw_parts_mut(bytes, length)
}

/// # Safety
/// See the head of this file.
#[no_mangle]
pub unsafe extern "C" fn second_encode(
    t: u32,
    r: u32,
    message: *const u8,
    message_len: usize,
    out: *mut u8,
    out_len: usize,
) -> i32 {
    let (message, out) = (read(message, message_len), write(out, out_len));
    answer(t, r, |code| code.encode(message, out).map(|()| 0))
}

/// # Safety
/// See the head of this file.
#[no_mangle]
pub unsafe extern "C" fn second_correct(
    t: u32,
    r: u32,
    word: *const u8,
    word_len: usize,
    out: *mut u8,
    out_len: usize,
) -> i32 {
    let (word, out) = (read(word, word_len), write(out, out_len));
    answer(t, r, |code| code.correct(word, out))
}

/// # Safety
/// See the head of this file.
#[no_mangle]
pub unsafe extern "C" fn second_combine(
    t: u32,
    r: u32,
    first: *const u8,
    first_len: usize,
    second: *const u8,
    second_len: usize,
    out: *mut u8,
    out_len: usize,
) -> i32 {
    let (first, second) = (read(first, first_len), read(second, second_len));
    let out = write(out, out_len);
    answer(t, r, |code| code.combine(first, second, out).map(|()| 0))
}

/// # Safety
/// Safe with any numbers; unsafe only to have the type of z2z4_third_place.
#[no_mangle]
pub unsafe extern "C" fn second_third_place(t: u32, r: u32, i: u32, j: u32) -> i32 {
    answer(t, r, |code| code.third_place(i, j))
}
