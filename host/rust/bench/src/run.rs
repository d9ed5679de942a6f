//! What a run of `passes` or `steps` consists of: its argument, its codes, the comparison, and passes
//! over everything that is timed.

use crate::turns::{Effort, FULL, QUICK};
use second::Code;
use std::env;

/// Differences that are named; more are counted.
const NAMED: usize = 20;

/// How many inputs of a code were given, and what differed.
#[derive(Default)]
pub struct Compared {
    pub inputs: usize,
    pub differences: Vec<String>,
}

/// By the arguments `[--quick]`, and nothing else.
pub fn effort_asked() -> Option<Effort> {
    let arguments: Vec<String> = env::args().skip(1).collect();
    match arguments.iter().map(String::as_str).collect::<Vec<_>>()[..] {
        [] => Some(FULL),
        ["--quick"] => Some(QUICK),
        _ => None,
    }
}

/// The codes with these t, each with every r.
pub fn codes(lengths: impl IntoIterator<Item = u32>) -> Vec<Code> {
    let pairs = lengths
        .into_iter()
        .flat_map(|t| (1..=t).map(move |r| (t, r)));
    pairs
        .filter_map(|(t, r)| Code::open(t, r, 0).ok())
        .collect()
}

/// Prints what the comparison of all codes came to; whether there is no difference.
pub fn agree(all: &[Compared], given_to: &str) -> bool {
    let inputs: usize = all.iter().map(|compared| compared.inputs).sum();
    let found: usize = all.iter().map(|compared| compared.differences.len()).sum();
    println!("{inputs} inputs, each given to {given_to}: {found} differences");
    let differences = all.iter().flat_map(|compared| &compared.differences);
    differences.take(NAMED).for_each(|text| println!("{text}"));
    found == 0
}

/// Measures each cell in each pass; `measure` takes the number of the pass too.
pub fn pass_over<C>(cells: &mut [C], effort: Effort, measure: impl Fn(&mut C, usize)) {
    for pass in 1..=effort.passes {
        cells.iter_mut().for_each(|cell| measure(cell, pass));
        eprintln!("pass {pass} of {}", effort.passes);
    }
}
