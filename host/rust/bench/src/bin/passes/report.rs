//! The figures as text.

use crate::calls::COPIES;
use crate::times::Figures;
use bench::kinds::KINDS;
use bench::spread::ends;
use bench::text::{nanoseconds, processor, ratio};
use bench::turns::Effort;
use bench::words::SAMPLES;

const HEAD: &str = "\
Nanoseconds a correction: the call as it was before request C-14, and the new one.
Included in every time: all checks of the input, writing the whole word where the call is
accepted, telling the record, and the loop over the words. All calls write to one output buffer,
which is not cleared between them.";
const COPIED: &str = "\
Where code stands moves its times. So the two calls stand in this binary several times, and the
figures are over all copies; \"copies\" has the lowest and the highest of their median ratios.
Bytes from a multiple of 64 to where the calls begin:";

pub fn print_head(effort: Effort) {
    println!("{HEAD}");
    println!(
        "Each figure is the median of {} batches, the quartiles in brackets. Batches of the two\n\
         calls alternate, each over {SAMPLES} different words; the ratio is that of the new call to the\n\
         call as it was, made turn by turn.",
        effort.passes * effort.batches * COPIES.len()
    );
    println!("{COPIED}");
    for (number, copy) in (1..).zip(COPIES) {
        let [was, new] = copy.addresses().map(|address| address % 64);
        println!("  copy {number}  as it was {was:2}, new {new:2}");
    }
    println!("Processor: {}", processor());
    println!("Both calls made by: {}", env!("BENCH_TIMED"));
}

pub fn print(all: &[Figures]) {
    println!(
        "\n{:2} {:2} {:4} {:30} {:>22} {:>22} {:>20} {:>14}",
        "t", "r", "n", "word", "as it was", "new", "new/as it was", "copies"
    );
    for figures in all {
        let (lowest, highest) = ends(figures.copies);
        println!(
            "{:2} {:2} {:4} {:30} {:>22} {:>22} {:>20} {:>14}",
            figures.t,
            figures.r,
            figures.n,
            figures.kind.name(),
            nanoseconds(figures.as_it_was),
            nanoseconds(figures.new),
            ratio(figures.ratio),
            format!("{lowest:.2} to {highest:.2}")
        );
    }
    print_range(all);
}

/// How far the codes of each length differ.
fn print_range(all: &[Figures]) {
    println!("\nThe ratios of all codes of a length, from the lowest to the highest:");
    let mut lengths: Vec<usize> = all.iter().map(|figures| figures.n).collect();
    lengths.dedup();
    for n in lengths {
        for kind in KINDS {
            let of_kind = |figures: &&Figures| figures.n == n && figures.kind == kind;
            let rows = all.iter().filter(of_kind);
            let (lowest, highest) = ends(rows.map(|figures| figures.ratio.median));
            println!("  {n:4} {:30} {lowest:.2} to {highest:.2}", kind.name());
        }
    }
}
