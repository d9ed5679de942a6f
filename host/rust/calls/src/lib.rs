//! The four calls of the C library z2z4, for Rust.
//!
//! Nothing checks the declarations in `raw` against the Rattle source: if a type or an order
//! of arguments were wrong, only the tests would show it.
//!
//! The safe calls test nothing themselves. The library refuses every unfit input, and what it
//! asks of its caller, that an output overlaps nothing that is read, Rust's borrowing gives.
//! They answer as in z2z4.h: 0 or more is accepted, a refusal is its negated number; r = 0
//! stands for r = t.

use std::ptr;

/// What z2z4.h declares.
pub mod raw {
    /// z2z4_encode and z2z4_correct.
    pub type OneInput = unsafe extern "C" fn(u32, u32, *const u8, usize, *mut u8, usize) -> i32;
    /// z2z4_combine.
    pub type TwoInputs =
        unsafe extern "C" fn(u32, u32, *const u8, usize, *const u8, usize, *mut u8, usize) -> i32;
    /// z2z4_third_place.
    pub type Places = unsafe extern "C" fn(u32, u32, u32, u32) -> i32;

    extern "C" {
        pub fn z2z4_encode(
            t: u32,
            r: u32,
            message: *const u8,
            message_len: usize,
            out: *mut u8,
            out_len: usize,
        ) -> i32;
        pub fn z2z4_correct(
            t: u32,
            r: u32,
            word: *const u8,
            word_len: usize,
            out: *mut u8,
            out_len: usize,
        ) -> i32;
        pub fn z2z4_combine(
            t: u32,
            r: u32,
            first: *const u8,
            first_len: usize,
            second: *const u8,
            second_len: usize,
            out: *mut u8,
            out_len: usize,
        ) -> i32;
        pub fn z2z4_third_place(t: u32, r: u32, i: u32, j: u32) -> i32;
    }
}

/// A buffer to read. `None` is passed as NULL with length 0; an empty slice is not, since
/// Rust's empty slices have a pointer that is not NULL.
fn read(bytes: Option<&[u8]>) -> (*const u8, usize) {
    bytes.map_or((ptr::null(), 0), |bytes| (bytes.as_ptr(), bytes.len()))
}

/// A buffer to write; `None` as in `read`.
fn write(bytes: Option<&mut [u8]>) -> (*mut u8, usize) {
    bytes.map_or((ptr::null_mut(), 0), |bytes| {
        (bytes.as_mut_ptr(), bytes.len())
    })
}

/// Writes the codeword of a message.
pub fn encode<'a>(
    t: u32,
    r: u32,
    message: impl Into<Option<&'a [u8]>>,
    out: impl Into<Option<&'a mut [u8]>>,
) -> i32 {
    let (message, message_len) = read(message.into());
    let (out, out_len) = write(out.into());
    // Each pointer is to as many bytes as the length says, and they do not overlap.
    unsafe { raw::z2z4_encode(t, r, message, message_len, out, out_len) }
}

/// Writes the codeword within one place of a word; answers the place that changes.
pub fn correct<'a>(
    t: u32,
    r: u32,
    word: impl Into<Option<&'a [u8]>>,
    out: impl Into<Option<&'a mut [u8]>>,
) -> i32 {
    let (word, word_len) = read(word.into());
    let (out, out_len) = write(out.into());
    // As in encode.
    unsafe { raw::z2z4_correct(t, r, word, word_len, out, out_len) }
}

/// Writes the two words combined.
pub fn combine<'a>(
    t: u32,
    r: u32,
    first: impl Into<Option<&'a [u8]>>,
    second: impl Into<Option<&'a [u8]>>,
    out: impl Into<Option<&'a mut [u8]>>,
) -> i32 {
    let (first, first_len) = read(first.into());
    let (second, second_len) = read(second.into());
    let (out, out_len) = write(out.into());
    // As in encode; the two words are only read, so they may even be the same.
    unsafe { raw::z2z4_combine(t, r, first, first_len, second, second_len, out, out_len) }
}

/// Answers the place that makes a codeword of weight 3 with i and j.
pub fn third_place(t: u32, r: u32, i: u32, j: u32) -> i32 {
    // Numbers only: there is nothing to keep apart.
    unsafe { raw::z2z4_third_place(t, r, i, j) }
}
