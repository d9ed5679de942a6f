//! The copies of the library, which build/copies.rs makes: the same code at several offsets.

use calls::raw::{OneInput, Places, TwoInputs};

/// The calls of one copy. They are made through these pointers, so that the loop which times them
/// is one and the same for all copies.
#[derive(Clone, Copy)]
pub struct Calls {
    pub encode: OneInput,
    pub correct: OneInput,
    pub combine: TwoInputs,
    pub third_place: Places,
}

impl Calls {
    /// Where each call begins, in the order of the fields.
    pub fn addresses(&self) -> [usize; 4] {
        [
            self.encode as usize,
            self.correct as usize,
            self.combine as usize,
            self.third_place as usize,
        ]
    }
}

/// The calls of the copy with this number. Were they declared otherwise than in the crate `calls`,
/// they would not fit the fields.
macro_rules! copy {
    ($number:literal) => {{
        extern "C" {
            #[link_name = concat!("z2z4_encode_", $number)]
            fn encode(t: u32, r: u32, _: *const u8, _: usize, _: *mut u8, _: usize) -> i32;
            #[link_name = concat!("z2z4_correct_", $number)]
            fn correct(t: u32, r: u32, _: *const u8, _: usize, _: *mut u8, _: usize) -> i32;
            #[link_name = concat!("z2z4_combine_", $number)]
            fn combine(
                t: u32,
                r: u32,
                _: *const u8,
                _: usize,
                _: *const u8,
                _: usize,
                _: *mut u8,
                _: usize,
            ) -> i32;
            #[link_name = concat!("z2z4_third_place_", $number)]
            fn third_place(t: u32, r: u32, i: u32, j: u32) -> i32;
        }
        Calls {
            encode,
            correct,
            combine,
            third_place,
        }
    }};
}

pub const COPIES: [Calls; 4] = [copy!(1), copy!(2), copy!(3), copy!(4)];

#[cfg(test)]
mod tests {
    use super::*;

    #[test]
    fn every_call_stands_at_four_offsets() {
        for call in 0..4 {
            let mut offsets = COPIES.map(|copy| copy.addresses()[call] % 64);
            offsets.sort_unstable();
            assert_eq!(offsets.map(|offset| offset - offsets[0]), [0, 16, 32, 48]);
        }
    }

    #[test]
    fn the_calls_of_a_copy_keep_their_distances() {
        let distances = |copy: Calls| {
            copy.addresses()
                .map(|call| call.wrapping_sub(copy.addresses()[0]))
        };
        let first = distances(COPIES[0]);
        assert!(COPIES.into_iter().all(|copy| distances(copy) == first));
    }
}
