//! The coder's structs as crate coder_theory declares them, and correction as crates timed and
//! steps export it. Nothing checks these declarations against the Rattle source; that the calls
//! agree with the second program would fail if they were wrong.

#[repr(C)]
#[derive(Clone, Copy, Debug, PartialEq, Eq)]
pub struct Record {
    pub t: u32,
    pub r: u32,
    pub s: u32,
    pub words: u32,
    pub clean: u32,
    pub corrected_binary: u32,
    pub corrected_pairs: u32,
}

#[repr(C)]
#[derive(Clone, Copy, Debug, PartialEq, Eq)]
pub struct Answer {
    pub refusal: u32,
    pub place: u32,
}

#[repr(C)]
#[derive(Clone, Copy, Debug, PartialEq, Eq)]
pub struct Corrected {
    pub refusal: u32,
    pub place: u32,
    pub record: Record,
}

impl From<second::Record> for Record {
    fn from(record: second::Record) -> Record {
        Record {
            t: record.t,
            r: record.r,
            s: record.s,
            words: record.words,
            clean: record.clean,
            corrected_binary: record.corrected_binary,
            corrected_pairs: record.corrected_pairs,
        }
    }
}

pub type Correct = unsafe extern "C" fn(Record, *const u8, usize, *mut u8, usize) -> Corrected;

/// Makes a correction. It is part of the loop that times it.
#[inline]
pub fn correct(call: Correct, record: Record, word: &[u8], out: &mut [u8]) -> Corrected {
    // Each pointer is to as many bytes as its length says, and borrowing keeps `out` apart.
    unsafe {
        call(
            record,
            word.as_ptr(),
            word.len(),
            out.as_mut_ptr(),
            out.len(),
        )
    }
}
