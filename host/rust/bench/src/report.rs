//! The figures as text and as comma-separated values.

use crate::copies::COPIES;
use crate::measure::Figures;
use crate::programs::Table;
use crate::samples::Operation;
use bench::spread::ends;
use bench::text::{nanoseconds, processor, ratio};
use bench::turns::Effort;
use bench::words::SAMPLES;

const INCLUDED: &str = "\
Included in every time: all checks of the input, writing the whole word where one is written,
and the loop over the inputs.
  library         opens the code anew in each call and keeps no table
  second program  its array of elements is built once, before; it allocates its words in each call
  tables          the C program host/c/table.c; its tables are built once, before
All calls of a batch write to one output buffer, which is not cleared between them.";
const COPIED: &str = "\
Where code stands moves its times. So the library stands in this binary several times, and its
figures are over all copies; \"copies\" has the lowest and the highest of their median ratios to
the tables. The program by tables stands once, at the same offset in every binary, and the second
program once, where the linker puts it. Bytes from a multiple of 64 to where the calls begin:";

pub fn print_head(effort: Effort) {
    println!("Nanoseconds a call: the library, the second program and a program by tables.");
    println!("{INCLUDED}");
    println!(
        "Each figure is the median of {} batches, the quartiles in brackets. Batches of the three\n\
         programs alternate, each over {SAMPLES} different inputs; ratios are made batch by batch.",
        effort.passes * effort.batches * COPIES.len()
    );
    print_offsets();
    println!("Processor: {}", processor());
    println!("Library made by: {}", env!("BENCH_LIBRARY"));
    println!("Second program made by: {}", env!("BENCH_RUSTC"));
    println!("Tables made by: {}", env!("BENCH_CC"));
}

/// As this binary has them, so that the report itself says that the offsets differ.
fn print_offsets() {
    println!("{COPIED}");
    let line = |name: &str, calls: [usize; 4]| {
        let [encode, correct, combine, third] = calls.map(|address| address % 64);
        print!("  {name}  encode {encode:2}, correct {correct:2}");
        println!(", combine {combine:2}, third place {third:2}");
    };
    for (number, copy) in (1..).zip(COPIES) {
        line(&format!("copy {number}"), copy.addresses());
    }
    line("tables", Table::addresses());
}

pub fn print(all: &[Figures]) {
    println!(
        "\n{:2} {:2} {:4} {:31} {:>22} {:>22} {:>22} {:>20} {:>18} {:>20}",
        "t",
        "r",
        "n",
        "call",
        "library",
        "second",
        "tables",
        "library/tables",
        "copies",
        "library/second"
    );
    for figures in all {
        let (lowest, highest) = ends(figures.copies);
        println!(
            "{:2} {:2} {:4} {:31} {:>22} {:>22} {:>22} {:>20} {:>18} {:>20}",
            figures.t,
            figures.r,
            figures.n,
            figures.operation.name(),
            nanoseconds(figures.library),
            nanoseconds(figures.second),
            nanoseconds(figures.table),
            ratio(figures.to_table),
            format!("{lowest:.2} to {highest:.2}"),
            ratio(figures.to_second)
        );
    }
    print_between(all);
    print_growth(all);
}

/// How the cost grows with the length: words have four times as many places at t = 12 as at
/// t = 10.
fn print_growth(all: &[Figures]) {
    let time = |t, r| {
        let mut rows = all.iter();
        let row = rows.find(|f| (f.t, f.r, f.operation) == (t, r, Operation::Encode));
        row.map(|figures| figures.library.median)
    };
    if let (Some(short), Some(long)) = (time(10, 5), time(12, 6)) {
        println!(
            "Encode at (12, 6) takes {:.2} times as long as at (10, 5), for four times the places.",
            long / short
        );
    }
}

/// How far one copy speaks for another.
fn print_between(all: &[Figures]) {
    let percent = |figures: &Figures| {
        let (lowest, highest) = ends(figures.copies);
        100.0 * (highest / lowest - 1.0)
    };
    let mut rows: Vec<&Figures> = all.iter().collect();
    rows.sort_by(|x, y| percent(x).total_cmp(&percent(y)));
    let (middle, most) = (rows[rows.len() / 2], rows[rows.len() - 1]);
    let (lowest, highest) = ends(most.copies);
    println!(
        "\nFrom the lowest copy to the highest: {:.1} % or less in half of the rows,\n\
         {:.1} % at most (t = {}, r = {}, {}: {lowest:.2} to {highest:.2} times the tables).",
        percent(middle),
        percent(most),
        most.t,
        most.r,
        most.operation.name()
    );
}

pub fn csv(all: &[Figures]) -> String {
    let names = [
        "library_ns",
        "second_ns",
        "tables_ns",
        "library_to_tables",
        "library_to_second",
    ];
    let mut text = String::from("t,r,n,call");
    for name in names {
        text += &format!(",{name},{name}_low_quartile,{name}_high_quartile");
    }
    for number in 1..=COPIES.len() {
        text += &format!(",library_to_tables_copy_{number}");
    }
    text.push('\n');
    for f in all {
        text += &format!("{},{},{},\"{}\"", f.t, f.r, f.n, f.operation.name());
        for s in [f.library, f.second, f.table, f.to_table, f.to_second] {
            text += &format!(",{:.3},{:.3},{:.3}", s.median, s.low, s.high);
        }
        for ratio in f.copies {
            text += &format!(",{ratio:.3}");
        }
        text.push('\n');
    }
    text
}
