//! The files that the engine's programs are checked against are what the programs here write:
//! `expected` for `larger`, and `cases`, given the same calls, for `cases`.

use std::fs::{self, File};
use std::process::{Command, Stdio};

const ROOT: &str = concat!(env!("CARGO_MANIFEST_DIR"), "/../../..");

#[test]
fn larger_is_checked_against_what_expected_writes() {
    let written = output_of(env!("CARGO_BIN_EXE_expected"), Stdio::null());
    check("crates/larger/stdout", &written);
}

#[test]
fn cases_is_checked_against_what_cases_writes() {
    let calls = File::open(format!("{ROOT}/crates/cases/stdin"));
    let calls = calls.unwrap_or_else(|error| panic!("crates/cases/stdin: {error}"));
    let written = output_of(env!("CARGO_BIN_EXE_cases"), calls.into());
    check("crates/cases/stdout", &written);
}

/// A malformed line ends a run, so one in the middle would hide all cases after it. Only the last
/// line but one is meant to be malformed.
#[test]
fn no_case_is_hidden_by_a_malformed_line() {
    let text = |name| fs::read_to_string(format!("{ROOT}/crates/cases/{name}")).expect(name);
    let (calls, printed) = (text("stdin"), text("stdout"));
    assert_eq!(calls.lines().count(), printed.lines().count() + 1);
    let malformed = printed
        .lines()
        .position(|line| line.ends_with(" is malformed"));
    assert_eq!(malformed, Some(printed.lines().count() - 1));
}

fn output_of(program: &str, input: Stdio) -> Vec<u8> {
    let run = Command::new(program).stdin(input).output();
    let run = run.unwrap_or_else(|error| panic!("{program}: {error}"));
    assert!(run.status.success(), "{program}: {}", run.status);
    run.stdout
}

fn check(name: &str, written: &[u8]) {
    let file = fs::read(format!("{ROOT}/{name}"))
        .unwrap_or_else(|error| panic!("{name}: {error}; `make expected` writes it"));
    if let Some(line) = first_wrong_line(&file, written) {
        panic!("{name} is wrong in line {line}; `make expected` writes it");
    }
}

/// The line of the first byte in which the file is not what was written, counted from 1. Where
/// only one of them goes on, that is its next byte.
fn first_wrong_line(file: &[u8], written: &[u8]) -> Option<usize> {
    let alike = file.iter().zip(written).take_while(|(a, b)| a == b);
    let alike = alike.count();
    if alike == file.len() && alike == written.len() {
        return None;
    }
    let ended = file[..alike].iter().filter(|&&byte| byte == b'\n').count();
    Some(ended + 1)
}

#[test]
fn wrong_lines() {
    let file = b"one\ntwo\nthree\n";
    assert_eq!(first_wrong_line(file, file), None);
    assert_eq!(first_wrong_line(file, b"One\ntwo\nthree\n"), Some(1));
    assert_eq!(first_wrong_line(file, b"one\ntwo \nthree\n"), Some(2));
    assert_eq!(first_wrong_line(file, b"one\ntwo\nthree"), Some(3));
    assert_eq!(first_wrong_line(file, b"one\n"), Some(2));
    assert_eq!(first_wrong_line(file, b"one\ntwo\nthree\nfour\n"), Some(4));
    assert_eq!(first_wrong_line(b"", file), Some(1));
}
