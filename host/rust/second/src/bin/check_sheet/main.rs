//! Runs a sheet program on a list of inputs: `check_sheet PROGRAM [ARGUMENT..]`. On each it has to
//! print what the second program does and to end with success; the first on which it does not is
//! named and ends the check with failure.

mod inputs;
mod run;

use std::env;
use std::ffi::OsString;
use std::process::ExitCode;

fn main() -> ExitCode {
    let program: Vec<OsString> = env::args_os().skip(1).collect();
    if program.is_empty() {
        eprintln!("usage: check_sheet PROGRAM [ARGUMENT..]");
        return ExitCode::from(2);
    }
    match tried(&program) {
        Ok(inputs) => {
            println!("the sheet program prints what it has to on {inputs} inputs");
            ExitCode::SUCCESS
        }
        Err(fault) => {
            eprintln!("the sheet program {fault}");
            ExitCode::FAILURE
        }
    }
}

/// How many inputs were tried, or the first fault.
fn tried(program: &[OsString]) -> Result<usize, String> {
    let in_pieces = inputs::in_pieces();
    for (input, piece) in in_pieces {
        run::check(program, input, piece)?;
    }
    let at_once = inputs::all();
    for input in &at_once {
        run::check(program, input, input.len().max(1))?;
    }
    Ok(in_pieces.len() + at_once.len())
}
