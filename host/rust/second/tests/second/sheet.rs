//! The check of a sheet program passes right ones and finds wrong ones out. The second program's own
//! is right; a line of the shell around it, where it is `$0`, makes another of it.

use std::process::{Command, Output};

const RIGHT: &str = env!("CARGO_BIN_EXE_sheet");

fn checked(program: &[&str]) -> Output {
    let mut check = Command::new(env!("CARGO_BIN_EXE_check_sheet"));
    check.args(program).output().expect("the check runs")
}

fn said(bytes: &[u8]) -> String {
    String::from_utf8_lossy(bytes).into_owned()
}

/// What is said of the program, from the input on that it was found out by.
fn found_out(script: &str) -> String {
    let ran = checked(&["sh", "-c", script, RIGHT]);
    let fault = said(&ran.stderr);
    assert_eq!(ran.status.code(), Some(1), "{script}: {fault}");
    assert_eq!(said(&ran.stdout), "", "{script}");
    let from_input = fault.strip_prefix("the sheet program given ");
    from_input
        .unwrap_or_else(|| panic!("{script}: {fault}"))
        .into()
}

/// Eleven bytes say whether something follows the longest line: a program may stop there.
#[test]
fn a_right_one() {
    let ran = checked(&["sh", "-c", r#"head -c 11 | "$0""#, RIGHT]);
    assert!(ran.status.success(), "{}", said(&ran.stderr));
    assert_eq!(said(&ran.stdout).lines().count(), 1);
}

#[test]
fn one_that_reads_ten_bytes() {
    let fault = found_out(r#"head -c 10 | "$0""#);
    assert!(fault.starts_with(r#""0003 0002\n\n" prints"#), "{fault}");
    assert!(fault.ends_with("and not \"refused 7\\n\"\n"), "{fault}");
}

/// Right wherever the whole input is there at once.
#[test]
fn one_that_reads_once() {
    found_out(r#"dd bs=11 count=1 2>/dev/null | "$0""#);
}

#[test]
fn those_that_take_other_lines() {
    for script in [
        r#"head -n 1 | "$0""#,
        r#"tail -n 1 | "$0""#,
        r#"tail -c 10 | "$0""#,
        r#"tr -d '\r' | "$0""#,
        r#"tr -d '\0' | "$0""#,
        r#"tr -d + | "$0""#,
        r#"tr '\t' ' ' | "$0""#,
        r#"tr -s ' ' | "$0""#,
        r#"sed 's/ $//' | "$0""#,
        r#"sed 's/^0*//' | "$0""#,
        r#"sed 's/^4 0$/4 2/' | "$0""#,
        r#"sed 's/^12 /13 /' | "$0""#,
        r#"sed 's/^13 7$/12 7/' | "$0""#,
        r#"LC_ALL=C tr '\200-\377' '\000-\177' | "$0""#,
    ] {
        found_out(script);
    }
}

#[test]
fn those_that_print_other_texts() {
    for script in [
        "cat >/dev/null",
        r#""$0" | head -c 64"#,
        r#"text=$("$0"); test ${#text} -ge 64 || echo "$text""#,
        r#""$0" | sed '4000s/$/0/'"#,
        r#""$0" | tr ' ' '\t'"#,
        r#""$0"; echo"#,
        r#""$0" | sed 's/^refused 1$/refused 7/'"#,
    ] {
        let fault = found_out(script);
        assert!(fault.contains(" prints, from byte "), "{fault}");
    }
}

#[test]
fn those_that_end_with_failure() {
    for script in [r#""$0"; exit 1"#, r#""$0"; kill -9 $$"#] {
        let fault = found_out(script);
        assert!(fault.contains(" ends with "), "{fault}");
    }
}

#[test]
fn no_program() {
    assert_eq!(checked(&[]).status.code(), Some(2));
    let ran = checked(&["/no/such/program"]);
    assert_eq!(ran.status.code(), Some(1));
    let fault = said(&ran.stderr);
    assert!(fault.starts_with("the sheet program cannot be run: "));
}
