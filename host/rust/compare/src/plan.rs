//! The order of the cases: codes change fastest, then calls and kinds, so that a run of any
//! length has about as many cases of each call and kind, and of each code its share. Long codes
//! have a smaller one.

use crate::kind::{cells, Call, Kind};
use second::Code;

/// How often a code of at most 1,023 places comes in a round.
const TURNS: usize = 4;

pub struct Plan {
    /// All codes that open with r given.
    pub codes: Vec<Code>,
    pub cells: Vec<(Call, Kind)>,
    /// The indexes of the codes as they follow each other in a round, over and over with each cell.
    order: Vec<usize>,
}

/// How often a code comes in a round. What a case costs grows with the length, and the thirteen
/// codes of 2,047 and 4,095 places would take four fifths of the time; so a code comes half as
/// often with 2,047 places as with 1,023, and with 4,095 half as often again.
fn times(code: &Code) -> usize {
    match code.length() {
        0..=1023 => TURNS,
        1024..=2047 => TURNS / 2,
        _ => TURNS / 4,
    }
}

/// All codes, then again and again those that are still due.
fn order(codes: &[Code]) -> Vec<usize> {
    let due = |turn| (0..codes.len()).filter(move |code| turn < times(&codes[*code]));
    (0..TURNS).flat_map(due).collect()
}

impl Plan {
    pub fn new() -> Plan {
        let pairs = (0..=14).flat_map(|t| (1..=14).map(move |r| (t, r)));
        let codes = pairs.filter_map(|(t, r)| Code::open(t, r, 0).ok());
        let codes: Vec<Code> = codes.collect();
        Plan {
            order: order(&codes),
            codes,
            cells: cells(),
        }
    }

    /// The number of cases in which each cell comes with every code as often as it should.
    pub fn round(&self) -> u64 {
        (self.order.len() * self.cells.len()) as u64
    }

    /// How often each cell comes in a round with the code of this index.
    pub fn times(&self, code: usize) -> u64 {
        times(&self.codes[code]) as u64
    }

    /// Which code and which cell the case of this number is for.
    pub fn turn(&self, number: u64) -> (usize, usize) {
        let turn = (number % self.round()) as usize;
        (self.order[turn % self.order.len()], turn / self.order.len())
    }

    /// The first case of this cell.
    pub fn first(&self, cell: (Call, Kind)) -> Option<u64> {
        let index = self.cells.iter().position(|other| *other == cell)?;
        Some((self.order.len() * index) as u64)
    }

    pub fn admits(&self, t: u32, r: u32) -> bool {
        let mut codes = self.codes.iter();
        codes.any(|code| code.t() == t && (code.r() == r || r == 0))
    }
}

impl Default for Plan {
    fn default() -> Plan {
        Plan::new()
    }
}

#[cfg(test)]
mod tests {
    use super::*;

    #[test]
    fn a_round_has_each_cell_with_each_code_as_often_as_it_should() {
        let plan = Plan::new();
        let mut counts = vec![vec![0; plan.cells.len()]; plan.codes.len()];
        for number in 0..plan.round() {
            let (code, cell) = plan.turn(number);
            counts[code][cell] += 1;
        }
        for (code, counts) in counts.iter().enumerate() {
            assert!(counts.iter().all(|count| *count == plan.times(code)));
        }
        let longest = plan.codes.iter().map(Code::length).max();
        assert_eq!(longest, Some(4095));
    }
}
