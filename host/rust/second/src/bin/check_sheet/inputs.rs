//! What a sheet program is tried on: every code, numbers of every length, and good lines changed in
//! one byte or with something before or after them.

use std::collections::BTreeSet;

type Input = Vec<u8>;

/// The shortest good line, one of a longest code, and the longest line, ten bytes.
const GOOD: [&[u8]; 3] = [b"3 2\n", b"12 6\n", b"0003 0002\n"];

/// Spaces and other controls, signs and marks, the digits and their neighbours, and bytes that
/// would pass for a newline, a space or a digit if their highest bit were lost.
const BYTES: &[u8] = b"\0\t\n\x0b\r +,-./09:ax\x7f\x8a\xa0\xb2\xff";

/// Each input once; first those by which a wrong program is likely to be found out.
pub fn all() -> Vec<Input> {
    let mut inputs: Vec<Input> = OTHERS.map(Input::from).into();
    inputs.extend(GOOD.into_iter().flat_map(changes));
    inputs.extend((0..=255).map(|byte| [GOOD[2], &[byte]].concat()));
    inputs.extend(GOOD.into_iter().flat_map(surroundings));
    inputs.extend(small_numbers());
    inputs.extend(widths());
    inputs.extend(far_numbers());
    let mut seen = BTreeSet::new();
    inputs.retain(|input| seen.insert(input.clone()));
    inputs
}

/// Inputs that arrive so many bytes at a time.
pub fn in_pieces() -> [(&'static [u8], usize); 2] {
    [(GOOD[0], 2), (GOOD[2], 5)]
}

/// Every admitted code is among them, and each number up to two above the largest t.
fn small_numbers() -> impl Iterator<Item = Input> {
    let pairs = (0..=14).flat_map(|t| (0..=14).map(move |r| (t, r)));
    pairs.map(|(t, r)| line(t, r))
}

fn line(t: u64, r: u64) -> Input {
    format!("{t} {r}\n").into_bytes()
}

/// Leading zeros, up to four digits and beyond.
fn widths() -> impl Iterator<Item = Input> {
    let widths = (1..=6).flat_map(|first| (1..=6).map(move |second| (first, second)));
    widths.flat_map(|(first, second)| {
        let padded = |(t, r)| format!("{t:0first$} {r:0second$}\n").into_bytes();
        [(3, 2), (4, 0), (12, 6)].map(padded)
    })
}

/// 3 and 2, or 3 and 0, with a bit set far above: a program that keeps some of the bits only takes
/// them for admitted. The last two have too many digits.
fn far_numbers() -> impl Iterator<Item = Input> {
    let bits = (4..=13).chain([16, 32]);
    let far = [0].into_iter().chain(bits.map(|bit| 1 << bit));
    let pairs = far
        .clone()
        .flat_map(move |t| far.clone().map(move |r| (t, r)));
    pairs.flat_map(|(t, r)| [line(3 + t, 2 + r), line(3 + t, r)])
}

/// The line with one byte dropped, replaced or put in, at each place.
fn changes(line: &[u8]) -> Vec<Input> {
    let mut changed = Vec::new();
    for at in 0..=line.len() {
        let (front, back) = line.split_at(at);
        let rest = back.get(1..).unwrap_or_default();
        changed.push([front, rest].concat());
        for byte in BYTES {
            changed.push([front, &[*byte], rest].concat());
            changed.push([front, &[*byte], back].concat());
        }
    }
    changed
}

/// The line with other bytes before it or after it: a few, so many that eleven are full, and more
/// than a pipe or a buffer of 65,536 holds; then the line over and over.
fn surroundings(line: &[u8]) -> Vec<Input> {
    let mut inputs = Vec::new();
    for count in [2, 11 - line.len(), 11, 100, 65_536, 70_000] {
        for byte in b"\0\n 0x" {
            let many = vec![*byte; count];
            inputs.push([line, &many].concat());
            inputs.push([&many, line].concat());
        }
    }
    inputs.extend([2, 3, 10_000].map(|times| line.repeat(times)));
    inputs
}

/// What no change of one byte gives.
const OTHERS: [&str; 24] = [
    "",
    "\n",
    " ",
    " \n",
    "3\n2\n",
    "3 2 0\n",
    "3 2\r\n\r\n",
    "\r\n3 2\r\n",
    " 3 2 \n",
    "\"3 2\"\n",
    "(3,2)\n",
    "0x3 0x2\n",
    "3.0 2.0\n",
    "3e0 2e0\n",
    "+3 +2\n",
    "-3 -2\n",
    "three two\n",
    "code 3 2\n",
    "9999 9999\n",
    "10000 10000\n",
    // digits, a space and a mark of Unicode's
    "３ ２\n",
    "٣ ٢\n",
    "3\u{a0}2\n",
    "\u{feff}3 2\n",
];

#[cfg(test)]
mod tests {
    use super::*;
    use second::sheet;

    /// Two sheets differ where t or r does, and a code has one, however its line is written.
    #[test]
    fn every_code_and_both_refusals() {
        let texts: BTreeSet<String> = all().iter().map(|input| sheet::text(input)).collect();
        let is_sheet = |text: &&String| text.starts_with("code ");
        assert_eq!(texts.iter().filter(is_sheet).count(), 47);
        assert_eq!(texts.len(), 47 + 2);
        assert!(texts.contains("refused 1\n") && texts.contains("refused 7\n"));
    }

    /// A start of the program for each, which takes about a millisecond.
    #[test]
    fn not_too_many() {
        assert!(all().len() < 2_000);
    }

    #[test]
    fn changes_of_a_line() {
        let changed = changes(b"3 2\n");
        for input in [
            " 2\n", "32\n", "3 \n", "3 2", "\t 2\n", "3\t2\n", "3 9\n", "3 2\r", " 3 2\n",
            "3  2\n", "3 2\r\n", "3 2\nx",
        ] {
            assert!(changed.contains(&input.into()), "{input}");
        }
    }
}
