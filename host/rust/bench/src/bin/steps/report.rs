//! The figures as text.

use crate::calls::COPIES;
use crate::times::Figures;
use crate::KINDS;
use bench::spread::{ends, Spread};
use bench::text::{nanoseconds, processor, ratio};
use bench::turns::Effort;
use bench::words::SAMPLES;

const HEAD: &str = "\
Nanoseconds a call: correction; its two steps of request C-20, asking, and committing the right
place; and a plain copy of the word to the output, which correction makes and asking does not.
A commit corrects its word. So after each call the byte at the place that was flipped is written
as it was, which damages the word again; where none was flipped it is the first byte. The same
byte is written in the loops of correction, asking and copy, so that the loops differ in the call
alone. Included in every time: that write, and the loop over the words; for the calls also all
checks of the input and, but for asking, telling the record. Correction and copy write to one
output buffer, which is not cleared between them.";
const COPIED: &str = "\
Where code stands moves its times. So the three calls stand in this binary several times, and the
figures are over all copies; \"copies\" has the lowest and the highest of their median ratios.
Bytes from a multiple of 64 to where the calls begin:";

pub fn print_head(effort: Effort) {
    println!("{HEAD}");
    println!(
        "Each figure is the median of {} batches, the quartiles in brackets. Batches of the four\n\
         alternate, each over {SAMPLES} different words; ratios are made turn by turn. The last is what\n\
         ask/correct would be if asking cost what correction does less the plain copy.",
        effort.passes * effort.batches * COPIES.len()
    );
    println!("{COPIED}");
    for (number, copy) in (1..).zip(COPIES) {
        let [correct, ask, commit] = copy.addresses().map(|address| address % 64);
        println!("  copy {number}  correct {correct:2}, ask {ask:2}, commit {commit:2}");
    }
    println!("Processor: {}", processor());
    println!("All three calls made by: {}", env!("BENCH_STEPS"));
}

pub fn print(all: &[Figures]) {
    println!(
        "\n{:2} {:2} {:4} {:8} {:>19} {:>19} {:>19} {:>19} {:>18} {:>12} {:>18} {:>12} {:>22}",
        "t",
        "r",
        "n",
        "word",
        "correct",
        "ask",
        "commit",
        "plain copy",
        "ask/correct",
        "copies",
        "commit/correct",
        "copies",
        "(correct-copy)/correct"
    );
    for figures in all {
        let [correct, ask, commit, copy] = figures.times.map(nanoseconds);
        println!(
            "{:2} {:2} {:4} {:8} {:>19} {:>19} {:>19} {:>19} {:>18} {:>12} {:>18} {:>12} {:>22}",
            figures.t,
            figures.r,
            figures.n,
            figures.kind.name(),
            correct,
            ask,
            commit,
            copy,
            ratio(figures.ask.spread),
            range(figures.ask.copies),
            ratio(figures.commit.spread),
            range(figures.commit.copies),
            ratio(figures.less_copy)
        );
    }
    print_range(all);
}

fn range(values: impl IntoIterator<Item = f64>) -> String {
    let (lowest, highest) = ends(values);
    format!("{lowest:.2} to {highest:.2}")
}

/// How far the codes of each length differ.
fn print_range(all: &[Figures]) {
    println!("\nThe ratios of all codes of a length, from the lowest to the highest:");
    let mut lengths: Vec<usize> = all.iter().map(|figures| figures.n).collect();
    lengths.dedup();
    for n in lengths {
        for kind in KINDS {
            let of_kind = |figures: &&Figures| figures.n == n && figures.kind == kind;
            let of = |ratio: fn(&Figures) -> Spread| {
                let rows = all.iter().filter(of_kind);
                range(rows.map(|figures| ratio(figures).median))
            };
            println!(
                "  {n:4} {:8}  ask/correct {}, commit/correct {}, (correct-copy)/correct {}",
                kind.name(),
                of(|figures| figures.ask.spread),
                of(|figures| figures.commit.spread),
                of(|figures| figures.less_copy)
            );
        }
    }
}
