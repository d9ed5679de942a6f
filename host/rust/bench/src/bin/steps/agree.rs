//! Before anything is timed: correction, asking and committing tell and write what the second program
//! does.

use crate::calls::Calls;
use crate::step::Step;
use bench::inputs::{each, Input};
use bench::run::Compared;
use second::Code;

/// Compares on every input of a code, each with several calls.
pub fn compare(code: &Code, copies: &[Calls]) -> Compared {
    let mut compared = Compared::default();
    each(code, |input| {
        for step in Step::all(input) {
            compared.inputs += 1;
            let found = differences(step, input, copies);
            compared.differences.extend(found);
        }
    });
    compared
}

/// What differs in one call on one input.
fn differences(step: Step, input: &Input, copies: &[Calls]) -> Vec<String> {
    let second = step.by_second(input);
    let mut all = vec![];
    for (number, copy) in (1..).zip(copies) {
        if let Some(what) = second.difference(&step.by_copy(*copy, input)) {
            let named = input.named(&step.name());
            all.push(format!(
                "{named}, copy {number}: the second program and the call: {what}"
            ));
        }
    }
    all
}

#[cfg(test)]
mod tests {
    use super::*;
    use crate::calls::COPIES;
    use bench::run::codes;
    use std::collections::BTreeSet;

    #[test]
    fn the_calls_agree_on_every_small_code() {
        for code in codes(2..=6) {
            let compared = compare(&code, &COPIES);
            assert_eq!(compared.differences, [""; 0]);
            assert!(compared.inputs > 2_000);
        }
    }

    /// The refusals of correction, of asking and of committing.
    #[test]
    fn every_refusal_is_met() {
        let mut met = [const { BTreeSet::new() }; 3];
        each(&Code::open(5, 3, 0).expect("admitted"), |input| {
            for step in Step::all(input) {
                let call = match step {
                    Step::Correct(_) => 0,
                    Step::Ask => 1,
                    Step::Commit(_) => 2,
                };
                met[call].insert(step.by_second(input).told.refusal);
            }
        });
        let [correct, ask, commit] = met.map(|numbers| numbers.into_iter().collect::<Vec<_>>());
        assert_eq!(correct, [0, 2, 3, 4, 10, 11, 21, 22, 23]);
        assert_eq!(ask, [0, 2, 4, 10, 11, 21, 22]);
        assert_eq!(commit, [0, 2, 4, 10, 11, 21, 22, 23, 24]);
    }
}
