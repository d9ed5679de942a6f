//! Times each operation on each code by the three programs in turn, batch by batch. Operations
//! take turns too: in each pass an operation is timed with every copy of the library.

use crate::copies::COPIES;
use crate::programs::{Library, Program, Table};
use crate::samples::{Operation, Sample};
use bench::spread::{by_copy, spread, Spread};
use bench::turns::{self, in_turn, rounds};
use bench::words::SAMPLES;
use second::Code;
use std::hint::black_box;

/// The three programs on one code, everything that is built once built.
pub struct Programs {
    /// One for each copy.
    libraries: Vec<Library>,
    pub second: Code,
    table: Table,
}

/// Of the library, the second program and the program by tables, in this order.
type Each<T> = [T; 3];

/// Nanoseconds a call, and the ratios batch by batch, over all copies of the library.
pub struct Figures {
    pub t: u32,
    pub r: u32,
    pub n: usize,
    pub operation: Operation,
    pub library: Spread,
    pub second: Spread,
    pub table: Spread,
    pub to_table: Spread,
    pub to_second: Spread,
    /// The median ratio to the tables of each copy alone.
    pub copies: [f64; COPIES.len()],
}

/// One operation on one code, and the batches so far.
pub struct Cell<'a> {
    programs: &'a Programs,
    operation: Operation,
    samples: Vec<Sample>,
    rounds: Each<usize>,
    turns: Vec<Turn>,
}

/// A batch of each program, the library's by one of its copies: nanoseconds a call.
struct Turn {
    copy: usize,
    times: Each<f64>,
}

impl Programs {
    pub fn of(t: u32, r: u32) -> Option<Programs> {
        let second = Code::open(t, r, 0).ok()?;
        let table = Table::prepare(t, r);
        let libraries = COPIES.map(|calls| Library { t, r, calls }).into();
        Some(Programs {
            libraries,
            second,
            table,
        })
    }

    /// Before anything is timed: all accept every sample and write the same.
    fn agree(&self, operation: Operation, samples: &[Sample]) {
        let n = self.second.length();
        for sample in samples {
            let second = outcome(&self.second, operation, sample, n);
            assert!(second.0 >= 0, "{operation:?} is refused: {}", second.0);
            for (number, library) in (1..).zip(&self.libraries) {
                let ours = outcome(library, operation, sample, n);
                assert_eq!(
                    ours, second,
                    "{operation:?}: copy {number} and second program"
                );
            }
            let table = outcome(&self.table, operation, sample, n);
            assert_eq!(table, second, "{operation:?}: tables and second program");
        }
    }
}

impl<'a> Cell<'a> {
    pub fn new(programs: &'a Programs, operation: Operation, batch_ns: f64) -> Cell<'a> {
        let samples = operation.samples(&programs.second);
        programs.agree(operation, &samples);
        let mut cell = Cell {
            programs,
            operation,
            samples,
            rounds: [2; 3],
            turns: vec![],
        };
        let short = cell.turn(0, 0);
        let enough = |a_call: f64| rounds(batch_ns, SAMPLES, a_call);
        cell.rounds = short.times.map(enough);
        cell
    }

    /// A pass, with a round of each program to warm up. Each copy in turn comes first.
    pub fn measure(&mut self, pass: usize, batches: usize) {
        for program in 1..3 {
            self.batch(program, 0, 1);
        }
        for copy in in_turn(pass, COPIES.len()) {
            self.batch(0, copy, 1);
            for first in 0..batches {
                let turn = self.turn(copy, first);
                self.turns.push(turn);
            }
        }
    }

    /// The programs in their order, which begins by `first` and goes round.
    fn turn(&self, copy: usize, first: usize) -> Turn {
        let mut times = [0.0; 3];
        for program in in_turn(first, 3) {
            times[program] = self.batch(program, copy, self.rounds[program]);
        }
        Turn { copy, times }
    }

    fn batch(&self, program: usize, copy: usize, rounds: usize) -> f64 {
        let Programs {
            libraries,
            second,
            table,
        } = self.programs;
        let (operation, samples) = (self.operation, &self.samples);
        let mut out = vec![0; second.length()];
        match program {
            0 => batch(&libraries[copy], operation, samples, &mut out, rounds),
            1 => batch(second, operation, samples, &mut out, rounds),
            _ => batch(table, operation, samples, &mut out, rounds),
        }
    }

    pub fn figures(self) -> Figures {
        let code = &self.programs.second;
        let all = |figure: fn(&Turn) -> f64| spread(self.turns.iter().map(figure).collect());
        let ratio = |turn: &Turn| (turn.copy, to_table(turn));
        let ratios: Vec<_> = self.turns.iter().map(ratio).collect();
        Figures {
            t: code.t(),
            r: code.r(),
            n: code.length(),
            operation: self.operation,
            library: all(|turn| turn.times[0]),
            second: all(|turn| turn.times[1]),
            table: all(|turn| turn.times[2]),
            to_table: all(to_table),
            to_second: all(|turn| turn.times[0] / turn.times[1]),
            copies: by_copy(&ratios),
        }
    }
}

fn to_table(turn: &Turn) -> f64 {
    turn.times[0] / turn.times[2]
}

fn outcome<P: Program>(
    program: &P,
    operation: Operation,
    sample: &Sample,
    n: usize,
) -> (i32, Vec<u8>) {
    let mut out = vec![7; n];
    (operation.call(program, sample, &mut out), out)
}

/// Nanoseconds a call.
fn batch<P: Program>(
    program: &P,
    operation: Operation,
    samples: &[Sample],
    out: &mut [u8],
    rounds: usize,
) -> f64 {
    // Without `move` the shortest call, the tables' third place, was seen to take a tenth longer.
    turns::batch(samples, rounds, move |sample| {
        black_box(operation.call(program, sample, black_box(&mut *out)));
    })
}

#[cfg(test)]
mod tests {
    use super::*;

    #[test]
    #[should_panic(expected = "copy 3")]
    fn a_wrong_copy_is_found_out() {
        let mut programs = Programs::of(4, 3).expect("admitted");
        let calls = &mut programs.libraries[2].calls;
        calls.encode = calls.correct;
        Cell::new(&programs, Operation::Encode, 1.0);
    }
}
