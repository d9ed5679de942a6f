//! The two corrections of crate timed, in the copies that build/copies.rs makes of them. Nothing
//! checks these declarations against the Rattle source; that both agree with the second program
//! would fail if they were wrong.

use bench::coder::{Correct, Corrected, Record};

/// The calls of one copy. They are made through these pointers, so that the loop which times them
/// is one and the same for both and for all copies.
#[derive(Clone, Copy)]
pub struct Calls {
    pub as_it_was: Correct,
    pub new: Correct,
}

impl Calls {
    /// In the order of the fields.
    pub fn both(self) -> [Correct; 2] {
        [self.as_it_was, self.new]
    }

    /// Where they begin.
    pub fn addresses(self) -> [usize; 2] {
        self.both().map(|call| call as usize)
    }
}

/// The calls of the copy with this number.
macro_rules! copy {
    ($number:literal) => {{
        extern "C" {
            #[link_name = concat!("timed_two_passes_", $number)]
            fn as_it_was(_: Record, _: *const u8, _: usize, _: *mut u8, _: usize) -> Corrected;
            #[link_name = concat!("timed_correct_", $number)]
            fn new(_: Record, _: *const u8, _: usize, _: *mut u8, _: usize) -> Corrected;
        }
        Calls { as_it_was, new }
    }};
}

pub const COPIES: [Calls; 4] = [copy!(1), copy!(2), copy!(3), copy!(4)];

#[cfg(test)]
mod tests {
    use super::*;

    #[test]
    fn both_calls_stand_at_four_offsets() {
        for call in 0..2 {
            let mut offsets = COPIES.map(|copy| copy.addresses()[call] % 64);
            offsets.sort_unstable();
            assert_eq!(offsets.map(|offset| offset - offsets[0]), [0, 16, 32, 48]);
        }
    }

    #[test]
    fn the_calls_of_a_copy_keep_their_distance() {
        let distances = COPIES.map(|copy| copy.addresses()[1].wrapping_sub(copy.addresses()[0]));
        assert_eq!(distances, [distances[0]; 4]);
    }
}
