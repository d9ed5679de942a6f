//! The long comparison: `compare [--calls N] [--seed S] [--first NUMBER]`. The first mismatch is
//! printed in full and ends the program with failure; `--calls 1 --first NUMBER` repeats it.

use compare::check::{LINKED, SECOND};
use compare::{run, Run};
use std::env;
use std::process::ExitCode;
use std::time::Instant;

const USAGE: &str = "usage: compare [--calls N] [--seed S] [--first NUMBER]";

fn read_arguments() -> Option<Run> {
    let mut asked = Run {
        seed: 1,
        first: 0,
        calls: 100_000_000,
    };
    let mut arguments = env::args().skip(1);
    while let Some(name) = arguments.next() {
        let value = arguments.next()?.parse().ok()?;
        match name.as_str() {
            "--calls" => asked.calls = value,
            "--seed" => asked.seed = value,
            "--first" => asked.first = value,
            _ => return None,
        }
    }
    asked.first.checked_add(asked.calls)?;
    Some(asked)
}

fn main() -> ExitCode {
    let Some(asked) = read_arguments() else {
        eprintln!("{USAGE}");
        return ExitCode::from(2);
    };
    let start = Instant::now();
    let watch = |done: u64| {
        let speed = done as f64 / start.elapsed().as_secs_f64();
        eprintln!("{done} of {} calls, {speed:.0} a second", asked.calls);
    };
    match run(asked, &LINKED, &SECOND, watch) {
        Ok(counts) => {
            let met: u64 = counts.iter().flatten().sum();
            let least = counts.iter().flatten().min().expect("a code");
            println!(
                "{} calls over {} codes from seed {}, case {} on, in {:.0} s: no difference",
                asked.calls,
                counts.len(),
                asked.seed,
                asked.first,
                start.elapsed().as_secs_f64()
            );
            println!("{met} had an answer of their kind,");
            println!("every kind of every call at least {least} times with each code");
            ExitCode::SUCCESS
        }
        Err(mismatch) => {
            println!("{mismatch}");
            ExitCode::FAILURE
        }
    }
}
