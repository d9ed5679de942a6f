//! Before anything is timed: the call as it was, the new one and the second program tell and write
//! the same.

use crate::calls::Calls;
use bench::inputs::{each, Input};
use bench::outcome::{correction, second_correction};
use bench::run::Compared;
use second::Code;

/// Compares on every input of a code, each with several outputs.
pub fn compare(code: &Code, copies: &[Calls]) -> Compared {
    let mut compared = Compared::default();
    each(code, |input| {
        for room in input.rooms() {
            compared.inputs += 1;
            let found = differences(input, room, copies);
            compared.differences.extend(found);
        }
    });
    compared
}

/// What differs on one input, with an output of so many bytes.
fn differences(input: &Input, room: usize, copies: &[Calls]) -> Vec<String> {
    let second = second_correction(input, room);
    let mut all = vec![];
    for (number, copy) in (1..).zip(copies) {
        let [was, new] = copy.both().map(|call| correction(call, input, room));
        let pairs = [
            ("the call as it was and the new one", &was, &new),
            ("the second program and the call as it was", &second, &was),
        ];
        for (who, x, y) in pairs {
            if let Some(what) = x.difference(y) {
                let named = input.named(&format!("output of {room} bytes"));
                all.push(format!("{named}, copy {number}: {who}: {what}"));
            }
        }
    }
    all
}

#[cfg(test)]
mod tests {
    use super::*;
    use crate::calls::COPIES;
    use bench::run::codes;

    #[test]
    fn the_calls_agree_on_every_small_code() {
        for code in codes(2..=6) {
            let compared = compare(&code, &COPIES);
            assert_eq!(compared.differences, [""; 0]);
            assert!(compared.inputs > 1_000);
        }
    }

    #[test]
    fn every_refusal_of_correction_is_met() {
        let mut met = [false; 24];
        each(&Code::open(5, 3, 0).expect("admitted"), |input| {
            for room in input.rooms() {
                met[second_correction(input, room).told.refusal as usize] = true;
            }
        });
        let numbers: Vec<usize> = (0..24).filter(|&number| met[number]).collect();
        assert_eq!(numbers, [0, 2, 3, 4, 10, 11, 21, 22, 23]);
    }
}
