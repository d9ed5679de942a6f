//! The benchmark runs through, which asserts that the three programs, and all copies of the
//! library, agree on every input, and writes its files whole. What it measures so quickly is not
//! looked at.

use std::fs;
use std::path::Path;
use std::process::Command;

#[test]
fn runs_and_writes_its_files() {
    let folder = Path::new(env!("CARGO_TARGET_TMPDIR"));
    let (csv, plot) = (folder.join("quick.csv"), folder.join("quick.svg"));
    let mut command = Command::new(env!("CARGO_BIN_EXE_bench"));
    command
        .arg("--quick")
        .arg("--csv")
        .arg(&csv)
        .arg("--plot")
        .arg(&plot);
    let run = command.output().expect("bench runs");
    let errors = String::from_utf8_lossy(&run.stderr);
    assert!(run.status.success(), "{}: {errors}", run.status);
    let report = String::from_utf8_lossy(&run.stdout);
    let growth = |line: &&str| line.starts_with("Encode at (12, 6) takes ");
    assert_eq!(report.lines().filter(growth).count(), 1);

    // 27 codes, six operations; the six codes with r = t have no pair to flip in.
    let csv = fs::read_to_string(csv).expect("figures");
    let rows: Vec<&str> = csv.lines().collect();
    assert_eq!(rows.len(), 1 + 27 * 6 - 6);
    // Three for each program and each of the two ratios, and a ratio for each copy of the library.
    let figures = |row: &str| {
        row.rsplit(',')
            .take(19)
            .filter(|f| f.parse::<f64>().is_ok())
            .count()
    };
    assert!(rows[1..].iter().all(|row| figures(row) == 19));

    // Two panels of six lines, each with a point for six lengths.
    let plot = fs::read_to_string(plot).expect("a plot");
    assert_eq!(plot.matches("<circle ").count(), 2 * 6 * 6);
    assert!(plot.trim_end().ends_with("</svg>"));
}

#[test]
fn an_unknown_argument_is_refused() {
    let mut command = Command::new(env!("CARGO_BIN_EXE_bench"));
    let run = command.arg("--fast").output().expect("bench runs");
    assert_eq!(run.status.code(), Some(2));
    assert!(String::from_utf8_lossy(&run.stderr).starts_with("usage: bench "));
}
