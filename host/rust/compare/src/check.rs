//! One case put to two libraries: the answers, every output byte, every guard byte and every
//! byte of the inputs.

use crate::case::Case;
use crate::guarded::{difference, Change, Guarded};
use crate::kind::Call;
use calls::raw;
use std::fmt;

/// A library as C sees it, so that a wrong one can be put in its place in tests.
#[derive(Clone, Copy)]
pub struct Library {
    pub encode: raw::OneInput,
    pub correct: raw::OneInput,
    pub combine: raw::TwoInputs,
    pub third_place: raw::Places,
}

/// The library that is compared.
pub const LINKED: Library = Library {
    encode: raw::z2z4_encode,
    correct: raw::z2z4_correct,
    combine: raw::z2z4_combine,
    third_place: raw::z2z4_third_place,
};

/// What it is compared with.
pub const SECOND: Library = Library {
    encode: second_c::second_encode,
    correct: second_c::second_correct,
    combine: second_c::second_combine,
    third_place: second_c::second_third_place,
};

#[derive(Debug, Clone, Copy, PartialEq, Eq)]
pub enum Side {
    Library,
    Second,
}

#[derive(Debug, Clone, Copy, PartialEq, Eq)]
pub enum Difference {
    Answer,
    /// A byte that had to be kept. Inputs count from 1, the output is 0.
    Kept {
        side: Side,
        buffer: usize,
        change: Change,
    },
    /// A byte of the first n of the outputs: `before` is the second program's, `after` the
    /// library's.
    Output(Change),
}

/// A case in which the two differ.
#[derive(Debug, Clone)]
pub struct Mismatch {
    pub case: Case,
    pub library: i32,
    pub second: i32,
    pub difference: Difference,
}

/// A case's buffers, the inputs after the output, and what a library made of them.
#[derive(Clone)]
struct Trial {
    buffers: Vec<Guarded>,
    answer: i32,
}

impl Trial {
    fn fresh(case: &Case) -> Trial {
        let inputs = case.inputs.iter();
        let inputs = inputs.map(|bytes| Guarded::holding(bytes.as_deref(), &case.fill));
        let mut buffers = vec![Guarded::filled(case.out, &case.fill)];
        buffers.extend(inputs);
        Trial { buffers, answer: 0 }
    }

    /// Calls the library on these buffers.
    fn put_to(&self, case: &Case, library: &Library) -> Trial {
        let mut trial = self.clone();
        let (t, r, [i, j]) = (case.t, case.r, case.places);
        let mut parts = trial.buffers.iter_mut().map(|b| (b.pointer(), b.length()));
        let mut next = || parts.next().expect("a buffer for each argument");
        let (out, out_len) = next();
        // Each pointer is to as many bytes as its length says, within a buffer of its own.
        trial.answer = unsafe {
            match case.call {
                Call::Encode => {
                    let (x, x_len) = next();
                    (library.encode)(t, r, x, x_len, out, out_len)
                }
                Call::Correct => {
                    let (x, x_len) = next();
                    (library.correct)(t, r, x, x_len, out, out_len)
                }
                Call::Combine => {
                    let ((x, x_len), (y, y_len)) = (next(), next());
                    (library.combine)(t, r, x, x_len, y, y_len, out, out_len)
                }
                Call::ThirdPlace => (library.third_place)(t, r, i, j),
            }
        };
        trial
    }

    /// The first change of a byte that had to be kept: all but the first `written` bytes of
    /// the output.
    fn kept(&self, fresh: &Trial, written: usize, side: Side) -> Option<Difference> {
        let both = self.buffers.iter().zip(&fresh.buffers).enumerate();
        both.into_iter().find_map(|(buffer, (after, before))| {
            let written = if buffer == 0 { written } else { 0 };
            let change = after.change(before, written)?;
            Some(Difference::Kept {
                side,
                buffer,
                change,
            })
        })
    }
}

/// Puts a case to both. Gives the answer where they agree in all.
pub fn check(case: &Case, library: &Library, second: &Library) -> Result<i32, Box<Mismatch>> {
    let fresh = Trial::fresh(case);
    let ours = fresh.put_to(case, library);
    let theirs = fresh.put_to(case, second);
    let writes = theirs.answer >= 0 && case.call != Call::ThirdPlace;
    // Never more than there is, were both to accept an output that is too short.
    let room = fresh.buffers[0].length();
    let written = if writes { case.length.min(room) } else { 0 };
    let answer = (ours.answer != theirs.answer).then_some(Difference::Answer);
    let difference = answer
        .or_else(|| ours.kept(&fresh, written, Side::Library))
        .or_else(|| theirs.kept(&fresh, written, Side::Second))
        .or_else(|| {
            let outputs = [&theirs, &ours].map(|trial| &trial.buffers[0].bytes()[..written]);
            difference(outputs[0], outputs[1], 0).map(Difference::Output)
        });
    match difference {
        None => Ok(ours.answer),
        Some(difference) => Err(Box::new(Mismatch {
            case: case.clone(),
            library: ours.answer,
            second: theirs.answer,
            difference,
        })),
    }
}

impl fmt::Display for Difference {
    fn fmt(&self, f: &mut fmt::Formatter) -> fmt::Result {
        let (change, side, buffer) = match *self {
            Difference::Answer => return write!(f, "the answers differ"),
            Difference::Output(change) => {
                let Change {
                    offset,
                    before,
                    after,
                } = change;
                write!(f, "the outputs differ first at byte {offset}: ")?;
                return write!(f, "library {after:02x}, second program {before:02x}");
            }
            Difference::Kept {
                side,
                buffer,
                change,
            } => (change, side, buffer),
        };
        let Change {
            offset,
            before,
            after,
        } = change;
        write!(f, "{side:?} changed byte {offset} of ")?;
        match buffer {
            0 => write!(f, "the output")?,
            _ => write!(f, "input {buffer}")?,
        }
        write!(f, ": {before:02x} to {after:02x}")?;
        write!(f, " (below 0 and from the length on they are guard bytes)")
    }
}

impl fmt::Display for Mismatch {
    fn fmt(&self, f: &mut fmt::Formatter) -> fmt::Result {
        let Mismatch {
            case,
            library,
            second,
            difference,
        } = self;
        write!(f, "{case}")?;
        writeln!(f, "answers: library {library}, second program {second}")?;
        write!(f, "{difference}")
    }
}
