//! The three calls of crate steps, in the copies that build/copies.rs makes of them. Nothing checks
//! these declarations against the Rattle source; that the calls agree with the second program would
//! fail if they were wrong.

use bench::coder::{Answer, Correct, Corrected, Record};

pub type Ask = unsafe extern "C" fn(Record, *const u8, usize) -> Answer;
pub type Commit = unsafe extern "C" fn(Record, u32, *mut u8, usize) -> Corrected;

/// Asks for the place at fault.
pub fn ask(call: Ask, record: Record, word: &[u8]) -> Answer {
    // The pointer is to as many bytes as its length says.
    unsafe { call(record, word.as_ptr(), word.len()) }
}

/// Commits a place.
pub fn commit(call: Commit, record: Record, place: u32, word: &mut [u8]) -> Corrected {
    // The pointer is to as many bytes as its length says.
    unsafe { call(record, place, word.as_mut_ptr(), word.len()) }
}

/// The calls of one copy. They are made through these pointers, so that the loop which times a call
/// is one and the same for all copies.
#[derive(Clone, Copy)]
pub struct Calls {
    pub correct: Correct,
    pub ask: Ask,
    pub commit: Commit,
}

impl Calls {
    /// Where they begin, in the order of the fields.
    pub fn addresses(self) -> [usize; 3] {
        [
            self.correct as usize,
            self.ask as usize,
            self.commit as usize,
        ]
    }
}

/// The calls of the copy with this number.
macro_rules! copy {
    ($number:literal) => {{
        extern "C" {
            #[link_name = concat!("steps_correct_", $number)]
            fn correct(_: Record, _: *const u8, _: usize, _: *mut u8, _: usize) -> Corrected;
            #[link_name = concat!("steps_ask_", $number)]
            fn ask(_: Record, _: *const u8, _: usize) -> Answer;
            #[link_name = concat!("steps_commit_", $number)]
            fn commit(_: Record, _: u32, _: *mut u8, _: usize) -> Corrected;
        }
        Calls {
            correct,
            ask,
            commit,
        }
    }};
}

pub const COPIES: [Calls; 4] = [copy!(1), copy!(2), copy!(3), copy!(4)];

#[cfg(test)]
mod tests {
    use super::*;

    #[test]
    fn every_call_stands_at_four_offsets() {
        for call in 0..3 {
            let mut offsets = COPIES.map(|copy| copy.addresses()[call] % 64);
            offsets.sort_unstable();
            assert_eq!(offsets.map(|offset| offset - offsets[0]), [0, 16, 32, 48]);
        }
    }

    #[test]
    fn the_calls_of_a_copy_keep_their_distances() {
        let distances = |copy: Calls| {
            let [correct, others @ ..] = copy.addresses();
            others.map(|call| call.wrapping_sub(correct))
        };
        let all = COPIES.map(distances);
        assert_eq!(all, [all[0]; 4]);
    }
}
