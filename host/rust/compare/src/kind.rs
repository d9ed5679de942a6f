//! The kinds of case, and the answers that show that a case is of its kind.

use std::ops::RangeInclusive;

#[derive(Debug, Clone, Copy, PartialEq, Eq)]
pub enum Call {
    Encode,
    Correct,
    Combine,
    ThirdPlace,
}

#[derive(Debug, Clone, Copy, PartialEq, Eq)]
pub enum Kind {
    // words that are fit to be read
    Codeword,
    OneFlip,
    TwoFlips,
    Random,
    Sparse,
    // faults of the words, or with two words of the first, the second or both
    BadByte,
    BadBytes,
    Shorter,
    Longer,
    Empty,
    Null,
    // the output
    ShortOutput,
    NullOutput,
    LongerOutput,
    // the places of a third place
    Inside,
    Neighbours,
    Outside,
    Equal,
    // the parameters
    NotAdmitted,
    ZeroR,
    // two faults or more, for the order of the reasons
    SeveralFaults,
}

use Call::*;
use Kind::*;

/// Messages are not made from codewords: every word of a message's length is one.
const OF_WORDS: [Kind; 3] = [Codeword, OneFlip, TwoFlips];
#[rustfmt::skip]
const OF_BUFFERS: [Kind; 14] = [
    Random, Sparse, BadByte, BadBytes, Shorter, Longer, Empty, Null,
    ShortOutput, NullOutput, LongerOutput, NotAdmitted, ZeroR, SeveralFaults,
];
#[rustfmt::skip]
const OF_PLACES: [Kind; 7] = [
    Inside, Neighbours, Outside, Equal, NotAdmitted, ZeroR, SeveralFaults,
];

/// Every call with every kind that it has.
pub fn cells() -> Vec<(Call, Kind)> {
    let with =
        |call: Call, kinds: &[Kind]| -> Vec<_> { kinds.iter().map(|kind| (call, *kind)).collect() };
    [
        with(Encode, &OF_BUFFERS),
        with(Correct, &OF_WORDS),
        with(Correct, &OF_BUFFERS),
        with(Combine, &OF_WORDS),
        with(Combine, &OF_BUFFERS),
        with(ThirdPlace, &OF_PLACES),
    ]
    .concat()
}

/// The answers that a case of this cell may have with a code of this length. A case with another
/// answer is not counted as met, so that a generator gone wrong shows in the counts.
pub fn answers(call: Call, kind: Kind, length: usize) -> RangeInclusive<i32> {
    let n = length as i32;
    match (call, kind) {
        (Correct, Codeword) => 0..=0,
        // Two flips are still within one place of a codeword, but of another one.
        (Correct, OneFlip | TwoFlips) => 1..=n,
        (Correct, Random | Sparse | LongerOutput | ZeroR) => 0..=n,
        (ThirdPlace, Inside | Neighbours | ZeroR) => 1..=n,
        (_, NotAdmitted) => -1..=-1,
        (_, Shorter | Longer | Empty | Null) => -2..=-2,
        (_, ShortOutput | NullOutput) => -3..=-3,
        (_, BadByte | BadBytes) => -4..=-4,
        (_, Outside) => -5..=-5,
        (_, Equal) => -6..=-6,
        (_, SeveralFaults) => -6..=-1,
        _ => 0..=0,
    }
}
