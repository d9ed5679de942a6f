//! The library and the second program agree on more than five million calls, and these were
//! calls of every kind for every code.

use compare::check::{LINKED, SECOND};
use compare::kind::answers;
use compare::plan::Plan;
use compare::{run, Run};

/// How often the plan is gone through: with it each kind of each call comes 2,400 times with each
/// code of up to 1,023 places, and 600 times with one of 4,095.
const ROUNDS: u64 = 600;

#[test]
fn millions_of_calls() {
    let plan = Plan::new();
    assert_eq!(plan.codes.len(), 47);
    let calls = ROUNDS * plan.round();
    assert!(calls > 5_000_000);
    let asked = Run {
        seed: 2024,
        first: 0,
        calls,
    };
    let counts = match run(asked, &LINKED, &SECOND, |_| {}) {
        Ok(counts) => counts,
        Err(mismatch) => panic!("{mismatch}"),
    };
    for (code, counts) in counts.iter().enumerate() {
        check_counts(&plan, code, counts);
    }
}

/// Every case of a code had an answer of its kind.
fn check_counts(plan: &Plan, code: usize, counts: &[u64]) {
    let (times, code) = (ROUNDS * plan.times(code), &plan.codes[code]);
    for ((call, kind), count) in plan.cells.iter().zip(counts) {
        assert!(
            *count == times,
            "{call:?} {kind:?} of ({}, {}): {count} of {times} answers in {:?}",
            code.t(),
            code.r(),
            answers(*call, *kind, code.length())
        );
    }
}
