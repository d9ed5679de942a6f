//! Some shortened codes of one code: the ends of what is allowed, s that are not, and drawn
//! ones, each with a round where it opens.

use crate::lines::opening;
use crate::round::Round;
use second::draw::Draw;
use second::Code;

/// Nine s that are fixed and so many drawn ones.
pub fn rounds(whole: &Code, drawn: u32, draw: &mut Draw) -> String {
    let (t, r) = (whole.t(), whole.r());
    let mut text = String::new();
    for turn in 0..9 + drawn {
        let s = chosen(whole, turn, draw);
        text += &opening(t, r, s);
        if let Ok(code) = Code::open(t, r, s) {
            text += &Round::run(&code, draw);
        }
    }
    text
}

/// Part 1 has k - a places and a message of the whole code m, of which one has to stay. In
/// between there are pairs, unless r = t or t = 2, where part 1 is all of it.
fn chosen(whole: &Code, turn: u32, draw: &mut Draw) -> u32 {
    let (k, a) = ((1 << whole.r()) - 1, 2 * whole.r() - whole.t());
    let part_1: u32 = k - a;
    let m = whole.message_length() as u32;
    // Each turn draws; those after the ninth take what they drew. Where t = 2, m - 2 wraps.
    let drawn = 1 + draw.below(whole.message_length()) as u32;
    let fixed = [
        1,
        part_1,
        part_1 + 1,
        part_1 + 2,
        m.wrapping_sub(2),
        m - 1,
        m,
        m + 1,
        u32::MAX,
    ];
    fixed.get(turn as usize).copied().unwrap_or(drawn)
}
