//! Times the three calls and a plain copy in turn, batch by batch, on the words of one kind and one
//! code.

use crate::calls::{ask, commit, Calls, COPIES};
use crate::samples::{batch, Sample};
use bench::coder::{correct, Record};
use bench::kinds::Kind;
use bench::spread::Spread;
use bench::turns::{in_turn, Turns};
use second::Code;
use std::hint::black_box;

/// Of correction, asking, committing and the copy, in this order.
type Each<T> = [T; 4];

/// Nanoseconds a call, and ratios to correction.
pub struct Figures {
    pub t: u32,
    pub r: u32,
    pub n: usize,
    pub kind: Kind,
    pub times: Each<Spread>,
    pub ask: Ratio,
    pub commit: Ratio,
    /// The ratio of correction less the copy.
    pub less_copy: Spread,
}

/// A ratio, turn by turn, over all copies, and the median of each copy alone.
pub struct Ratio {
    pub spread: Spread,
    pub copies: [f64; COPIES.len()],
}

/// One kind of one code, and the turns so far.
pub struct Cell<'a> {
    code: &'a Code,
    kind: Kind,
    given: Given,
    turns: Turns<4>,
}

/// What the calls are given.
struct Given {
    record: Record,
    samples: Vec<Sample>,
    /// Correction and the copy write here; it is not cleared between them.
    out: Vec<u8>,
}

impl Given {
    fn batch(&mut self, calls: Calls, call: usize, rounds: usize) -> f64 {
        let (record, out) = (self.record, &mut self.out[..]);
        let samples = &mut self.samples;
        match call {
            0 => batch(samples, rounds, move |word, _| {
                let out = black_box(&mut *out);
                black_box(correct(calls.correct, black_box(record), word, out));
            }),
            1 => batch(samples, rounds, move |word, _| {
                black_box(ask(calls.ask, black_box(record), word));
            }),
            2 => batch(samples, rounds, move |word, place| {
                black_box(commit(calls.commit, black_box(record), place, word));
            }),
            _ => batch(samples, rounds, move |word, _| {
                let out = black_box(&mut *out);
                out.copy_from_slice(word);
                black_box(out);
            }),
        }
    }
}

impl<'a> Cell<'a> {
    pub fn new(code: &'a Code, kind: Kind, batch_ns: f64) -> Cell<'a> {
        let mut given = Given {
            record: second::Record::of(code).into(),
            samples: Sample::of_kind(code, kind),
            out: vec![0; code.length()],
        };
        let turns = Turns::new(batch_ns, |call, rounds| {
            given.batch(COPIES[0], call, rounds)
        });
        Cell {
            code,
            kind,
            given,
            turns,
        }
    }

    /// A pass. Each copy in turn comes first.
    pub fn measure(&mut self, pass: usize, batches: usize) {
        for copy in in_turn(pass, COPIES.len()) {
            let batch = |call, rounds| self.given.batch(COPIES[copy], call, rounds);
            self.turns.take(copy, batches, batch);
        }
    }

    pub fn figures(self) -> Figures {
        let ratio = |figure: fn(Each<f64>) -> f64| Ratio {
            spread: self.turns.over_all(figure),
            copies: self.turns.by_copy(figure),
        };
        Figures {
            t: self.code.t(),
            r: self.code.r(),
            n: self.code.length(),
            kind: self.kind,
            times: [0, 1, 2, 3].map(|call| self.turns.over_all(|times| times[call])),
            ask: ratio(|[correct, ask, _, _]| ask / correct),
            commit: ratio(|[correct, _, commit, _]| commit / correct),
            less_copy: self
                .turns
                .over_all(|[correct, _, _, copy]| (correct - copy) / correct),
        }
    }
}
