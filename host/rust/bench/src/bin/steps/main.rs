//! Times asking and committing, the two steps of request C-20, beside correction, on the same words:
//! `steps [--quick]`. Before that, all three are compared with the second program; a difference is
//! named, and nothing is timed then. Ratios are printed, never asserted.

mod agree;
mod calls;
mod report;
mod samples;
mod step;
mod times;
#[cfg(test)]
mod wrong;

use agree::compare;
use bench::kinds::Kind;
use bench::run::{agree, codes, effort_asked, pass_over};
use bench::turns::Effort;
use calls::COPIES;
use second::Code;
use std::process::ExitCode;
use times::{Cell, Figures};

const USAGE: &str = "usage: steps [--quick]";
/// The t that are timed, each with every r: lengths 63, 1,023 and 4,095.
const LENGTHS: [u32; 3] = [6, 10, 12];
/// The words that are timed. Others are compared too.
const KINDS: [Kind; 2] = [Kind::Clean, Kind::OneFlip];

fn measure_all(codes: &[Code], effort: Effort) -> Vec<Figures> {
    let mut cells: Vec<Cell> = codes
        .iter()
        .flat_map(|code| KINDS.map(|kind| Cell::new(code, kind, effort.batch_ns)))
        .collect();
    pass_over(&mut cells, effort, |cell, pass| {
        cell.measure(pass, effort.batches)
    });
    cells.into_iter().map(Cell::figures).collect()
}

fn main() -> ExitCode {
    let Some(effort) = effort_asked() else {
        eprintln!("{USAGE}");
        return ExitCode::from(2);
    };
    let codes = codes(LENGTHS);
    let compared: Vec<_> = codes.iter().map(|code| compare(code, &COPIES)).collect();
    let given_to = format!(
        "its call in {} copies and to the second program",
        COPIES.len()
    );
    if !agree(&compared, &given_to) {
        return ExitCode::FAILURE;
    }
    report::print_head(effort);
    report::print(&measure_all(&codes, effort));
    ExitCode::SUCCESS
}
