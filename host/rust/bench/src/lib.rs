//! What the three benchmarks share: `bench`, which times the library beside two other programs,
//! `passes`, which times correction beside the call as it was before request C-14, and `steps`, which
//! times asking and committing beside correction. The last two compare with the second program first.

pub mod coder;
pub mod inputs;
pub mod kinds;
pub mod outcome;
pub mod run;
pub mod spread;
pub mod text;
pub mod turns;
pub mod words;
