//! The two benchmarks of calls on a record, which compare before they time, run through: the calls
//! and the second program agree on every input, and each code and kind has its row. What they
//! measure so quickly is not looked at.

use std::process::{Command, Output};

const PASSES: &str = env!("CARGO_BIN_EXE_passes");
const STEPS: &str = env!("CARGO_BIN_EXE_steps");

fn run(binary: &str, argument: &str) -> Output {
    let mut command = Command::new(binary);
    command.arg(argument).output().expect("it runs")
}

/// Of each t, as rows begin with it, so many codes; each with so many kinds of words.
fn has_every_row(binary: &str, kinds: usize, codes: &[(&str, usize)]) {
    let run = run(binary, "--quick");
    let errors = String::from_utf8_lossy(&run.stderr);
    assert!(run.status.success(), "{}: {errors}", run.status);
    let report = String::from_utf8_lossy(&run.stdout);
    let first = report.lines().next().expect("a line");
    assert!(first.ends_with(" 0 differences"), "{first}");
    for (start, count) in codes {
        let rows = report.lines().filter(|line| line.starts_with(start));
        assert_eq!(rows.count(), count * kinds, "t = {start}");
    }
}

#[test]
fn passes_runs_and_has_every_row() {
    let codes = [(" 3 ", 2), (" 6 ", 4), (" 8 ", 5), ("10 ", 6), ("12 ", 7)];
    has_every_row(PASSES, 7, &codes);
}

#[test]
fn steps_runs_and_has_every_row() {
    has_every_row(STEPS, 2, &[(" 6 ", 4), ("10 ", 6), ("12 ", 7)]);
}

#[test]
fn an_unknown_argument_is_refused() {
    for (binary, usage) in [(PASSES, "usage: passes "), (STEPS, "usage: steps ")] {
        let run = run(binary, "--fast");
        assert_eq!(run.status.code(), Some(2));
        assert!(String::from_utf8_lossy(&run.stderr).starts_with(usage));
    }
}
