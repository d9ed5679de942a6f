//! Writes to standard output what the engine's program `larger` has to print: every opening
//! for t = 0..13 and r = 0..14, and a call for C with each; for each code rounds of calls on
//! drawn words, and rounds in some of its shortened codes; then every word of the short codes.

mod digest;
mod every;
mod lines;
mod openings;
mod round;
mod shorter;

use round::Round;
use second::draw::Draw;
use second::Code;
use std::io::{self, Write};

fn main() -> io::Result<()> {
    io::stdout().write_all(expected().as_bytes())
}

fn expected() -> String {
    let mut text = String::new();
    for t in 0..=13 {
        for r in 0..=14 {
            text += &openings::with_each_s(t, r);
            text += &lines::opening(t, r, 0);
            text += &lines::third_for_c(t, r);
            // r = 0 opens a code that has its rounds under the r in force.
            if r != 0 {
                text += &rounds(t, r);
            }
        }
    }
    text + &every::words()
}

/// Three rounds of a code and three drawn s; with t = 11 and 12, whose words are long, one of
/// each, so that the whole text can still be read.
fn rounds(t: u32, r: u32) -> String {
    let Ok(code) = Code::open(t, r, 0) else {
        return String::new();
    };
    let times = if t <= 10 { 3 } else { 1 };
    let mut draw = Draw::from_state(1 + 100 * t + r);
    let mut text = String::new();
    for _ in 0..times {
        text += &Round::run(&code, &mut draw);
    }
    text + &shorter::rounds(&code, times, &mut draw)
}
