//! Times both calls in turn, batch by batch, on the words of one kind and one code.

use crate::calls::COPIES;
use bench::coder::{correct, Correct, Record};
use bench::kinds::Kind;
use bench::spread::Spread;
use bench::turns::{batch, in_turn, Turns};
use bench::words::SAMPLES;
use second::Code;
use std::hint::black_box;

/// Nanoseconds a call, and the ratio of the new call to the call as it was, turn by turn, over all
/// copies.
pub struct Figures {
    pub t: u32,
    pub r: u32,
    pub n: usize,
    pub kind: Kind,
    pub as_it_was: Spread,
    pub new: Spread,
    pub ratio: Spread,
    /// The median ratio of each copy alone.
    pub copies: [f64; COPIES.len()],
}

/// One kind of one code, and the turns so far: of the call as it was, then of the new one.
pub struct Cell<'a> {
    code: &'a Code,
    kind: Kind,
    given: Given,
    turns: Turns<2>,
}

/// What both calls are given.
struct Given {
    record: Record,
    words: Vec<Vec<u8>>,
    /// Both calls write here; it is not cleared between them.
    out: Vec<u8>,
}

impl Given {
    fn batch(&mut self, call: Correct, rounds: usize) -> f64 {
        let (record, out) = (self.record, &mut self.out[..]);
        batch(&self.words, rounds, move |word| {
            black_box(correct(call, black_box(record), word, black_box(&mut *out)));
        })
    }
}

impl<'a> Cell<'a> {
    pub fn new(code: &'a Code, kind: Kind, batch_ns: f64) -> Cell<'a> {
        let mut given = Given {
            record: second::Record::of(code).into(),
            words: kind.words(code, SAMPLES),
            out: vec![0; code.length()],
        };
        let calls = COPIES[0].both();
        let turns = Turns::new(batch_ns, |call, rounds| given.batch(calls[call], rounds));
        Cell {
            code,
            kind,
            given,
            turns,
        }
    }

    /// A pass. Each copy in turn comes first.
    pub fn measure(&mut self, pass: usize, batches: usize) {
        for copy in in_turn(pass, COPIES.len()) {
            let calls = COPIES[copy].both();
            let batch = |call: usize, rounds| self.given.batch(calls[call], rounds);
            self.turns.take(copy, batches, batch);
        }
    }

    pub fn figures(self) -> Figures {
        Figures {
            t: self.code.t(),
            r: self.code.r(),
            n: self.code.length(),
            kind: self.kind,
            as_it_was: self.turns.over_all(|[was, _]| was),
            new: self.turns.over_all(|[_, new]| new),
            ratio: self.turns.over_all(ratio),
            copies: self.turns.by_copy(ratio),
        }
    }
}

fn ratio([was, new]: [f64; 2]) -> f64 {
    new / was
}
