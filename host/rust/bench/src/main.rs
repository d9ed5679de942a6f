//! Times the library, the second program and the program by tables in one run:
//! `bench [--quick] [--csv FILE] [--plot FILE]`. Ratios are printed, never asserted; that the
//! three, and every copy of the library, give the same answers and outputs is asserted before each
//! measurement.

mod copies;
mod measure;
mod plot;
mod programs;
mod report;
mod samples;

use bench::turns::{Effort, FULL, QUICK};
use measure::{Cell, Figures, Programs};
use samples::OPERATIONS;
use std::env;
use std::fs;
use std::path::{Path, PathBuf};
use std::process::ExitCode;

const USAGE: &str = "usage: bench [--quick] [--csv FILE] [--plot FILE]";
const FOLDER: &str = concat!(env!("CARGO_MANIFEST_DIR"), "/../../../target/host");
/// The t that are timed, each with every r: 3 shows what a call costs whatever the length.
const LENGTHS: [u32; 6] = [3, 4, 6, 8, 10, 12];

struct Asked {
    effort: Effort,
    csv: PathBuf,
    plot: PathBuf,
}

fn read_arguments() -> Option<Asked> {
    let folder = Path::new(FOLDER);
    let (csv, plot) = (folder.join("bench.csv"), folder.join("bench.svg"));
    let mut asked = Asked {
        effort: FULL,
        csv,
        plot,
    };
    let mut arguments = env::args().skip(1);
    while let Some(name) = arguments.next() {
        match name.as_str() {
            "--quick" => asked.effort = QUICK,
            "--csv" => asked.csv = arguments.next()?.into(),
            "--plot" => asked.plot = arguments.next()?.into(),
            _ => return None,
        }
    }
    Some(asked)
}

fn measure_all(effort: Effort) -> Vec<Figures> {
    let pairs = LENGTHS
        .into_iter()
        .flat_map(|t| (1..=t).map(move |r| (t, r)));
    let codes: Vec<Programs> = pairs.filter_map(|(t, r)| Programs::of(t, r)).collect();
    let mut cells = vec![];
    for programs in &codes {
        let there = OPERATIONS
            .into_iter()
            .filter(|operation| operation.is_there(&programs.second));
        cells.extend(there.map(|operation| Cell::new(programs, operation, effort.batch_ns)));
    }
    for pass in 1..=effort.passes {
        cells
            .iter_mut()
            .for_each(|cell| cell.measure(pass, effort.batches));
        eprintln!("pass {pass} of {}", effort.passes);
    }
    cells.into_iter().map(Cell::figures).collect()
}

fn write(file: &Path, text: &str) -> Result<(), String> {
    let folder = file.parent().unwrap_or(Path::new(""));
    fs::create_dir_all(folder)
        .and_then(|()| fs::write(file, text))
        .map_err(|error| format!("{}: {error}", file.display()))
}

fn main() -> ExitCode {
    let Some(asked) = read_arguments() else {
        eprintln!("{USAGE}");
        return ExitCode::from(2);
    };
    report::print_head(asked.effort);
    let all = measure_all(asked.effort);
    report::print(&all);
    let csv = write(&asked.csv, &report::csv(&all));
    if let Err(problem) = csv.and_then(|()| write(&asked.plot, &plot::svg(&all))) {
        eprintln!("bench could not write {problem}");
        return ExitCode::FAILURE;
    }
    ExitCode::SUCCESS
}
