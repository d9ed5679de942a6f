//! Reads calls from standard input, one a line, and writes to standard output what the engine's
//! program `cases` has to print: every line, and after a call its answer.

mod calls;
mod line;
mod print;
mod table;
#[cfg(test)]
mod wrong;

use second::Record;
use std::io::{self, Read, Write};

/// From this many bytes on, its newline not counted, a line is too long: the engine's program has
/// as much room for one.
const TOO_LONG: usize = 65_536;

fn main() -> io::Result<()> {
    let mut input = Vec::new();
    io::stdin().read_to_end(&mut input)?;
    io::stdout().write_all(&answered(&input))
}

/// All that is printed for an input. A malformed line ends it.
fn answered(input: &[u8]) -> Vec<u8> {
    let mut printed = Vec::new();
    // Before any call that returns a record, `(last)` is the closed one.
    let mut last = Record::default();
    for (index, line) in lines(input).enumerate() {
        printed.extend(line);
        let Some(answer) = after(line, &mut last) else {
            printed.extend(format!(": line {} is malformed\n", index + 1).bytes());
            break;
        };
        printed.extend(answer.bytes());
        printed.push(b'\n');
    }
    printed
}

/// The lines without their newlines; where the input ends with one, no line follows it. `too
/// long` stands for a line that is, and is malformed as well: no call has that name.
fn lines(input: &[u8]) -> impl Iterator<Item = &[u8]> {
    let ended = input.split_inclusive(|&byte| byte == b'\n');
    let lines = ended.map(|line| line.strip_suffix(b"\n").unwrap_or(line));
    lines.map(|line| match line.len() {
        TOO_LONG.. => b"too long",
        _ => line,
    })
}

/// What is printed after a line, nothing but for a call; None where it is malformed.
fn after(line: &[u8], last: &mut Record) -> Option<String> {
    if matches!(line, [] | [b'#', ..]) {
        return Some(String::new());
    }
    let (name, arguments) = line::read(line, *last)?;
    let answer = table::answer(name, &arguments)?;
    *last = answer.record.unwrap_or(*last);
    Some(format!(": {}", answer.text))
}

#[cfg(test)]
mod tests {
    use super::*;

    /// A record with no two fields alike.
    pub const RECORD: Record = Record {
        t: 1,
        r: 2,
        s: 3,
        words: 4,
        clean: 5,
        corrected_binary: 6,
        corrected_pairs: u32::MAX,
    };

    fn check(input: &[u8], expected: &[u8]) {
        let shown = |text: &[u8]| text.escape_ascii().to_string();
        assert_eq!(shown(&answered(input)), shown(expected));
    }

    /// Lines as they have to be printed, indented or not. What each of them has before its first
    /// colon is read.
    pub fn check_lines(lines: &str) {
        let expected: Vec<&str> = lines.lines().map(str::trim).collect();
        let front = |line: &&str| line.split(':').take(1).collect::<String>() + "\n";
        let input: String = expected.iter().map(front).collect();
        let printed = String::from_utf8(answered(input.as_bytes())).expect("text");
        assert_eq!(printed.lines().collect::<Vec<_>>(), expected);
    }

    #[test]
    fn no_lines() {
        check(b"", b"");
        check(b"\n", b"\n");
    }

    /// They are bytes, and need not be text.
    #[test]
    fn comments_and_empty_lines() {
        let input = b"\n#\n# open 3 2 0\n\n#\xff\x00\xc3 \r\t [\n\n";
        check(input, input);
    }

    #[test]
    fn the_last_newline_may_be_missing() {
        let answer = b"word_length (3,2): 7\n";
        check(b"word_length (3,2)", answer);
        check(b"word_length (3,2)\n", answer);
        check(b"word_length (3,2)\n#", b"word_length (3,2): 7\n#\n");
        check(b"help", b"help: line 1 is malformed\n");
    }

    /// The example that the format is described with.
    #[test]
    fn the_example() {
        check_lines(
            r#"# README, "The calls"
            open 3 2 0: refusal 0 record (3,2,0,0,0,0,0)
            encode (last) [1010] {9999999}: refusal 0 place 0 {1010110}
            read_message (last) [1010110]: [1010]
            correct (last) [0011110] {99999999}: refusal 0 place 3 record (3,2,0,1,0,0,1) {00011109}
            correct (last) [0011112] {9999999}: refusal 4 place 7 record (3,2,0,1,0,0,1) {9999999}
            third_place (3,2) 1 2: refusal 0 place 5
            third_place (3,2) 1: line 8 is malformed"#,
        );
    }

    /// Lines are counted from 1, comments and empty ones too, and nothing follows.
    #[test]
    fn a_malformed_line_ends_the_run() {
        check(b"help\nopen 3 2 0\n", b"help: line 1 is malformed\n");
        check(
            b"# one\n\nword_length (3,2)\nword_length (3,2,)\n# five\nword_length (2,2)\n",
            b"# one\n\nword_length (3,2): 7\nword_length (3,2,): line 4 is malformed\n",
        );
    }

    /// Only a line's first byte makes it a comment, and only one without any byte is empty. All
    /// are printed as they are.
    #[test]
    fn neither_calls_nor_comments() {
        let spaces: [&[u8]; 5] = [b" ", b"  ", b" #", b" open 3 2 0", b"open 3 2 0 "];
        let others: [&[u8]; 5] = [b"\t", b"open 3 2 0\r", b"open\t3 2 0", b"\0", b"\xff: 7"];
        for line in [spaces, others].concat() {
            check(line, &[line, b": line 1 is malformed\n"].concat());
        }
    }

    /// A comment, a number and a word, each filled up with zeros.
    #[test]
    fn the_longest_line() {
        for (front, back, answer) in [
            ("#", "", ""),
            ("open 3 2 ", "", ": refusal 0 record (3,2,0,0,0,0,0)"),
            ("syndrome (3,2) [", "]", ": refusal 2 place 0 element 0"),
        ] {
            let zeros = "0".repeat(65_535 - front.len() - back.len());
            let longest = format!("{front}{zeros}{back}");
            let printed = format!("{longest}{answer}\n");
            let longer = format!("#\n\n{front}0{zeros}{back}");
            for rest in ["", "\n"] {
                check(format!("{longest}{rest}").as_bytes(), printed.as_bytes());
                let malformed = b"#\n\ntoo long: line 3 is malformed\n";
                check(format!("{longer}{rest}").as_bytes(), malformed);
            }
        }
    }

    /// It is closed at first.
    #[test]
    fn the_last_record() {
        check_lines(
            "syndrome (last) []: refusal 21 place 0 element 0
            open 3 2 0: refusal 0 record (3,2,0,0,0,0,0)
            word_length (last): 7
            # a correction returns the record that it was made with, refused or not
            correct (2,2) [000] {000}: refusal 0 place 0 record (2,2,0,1,1,0,0) {000}
            word_length (last): 3
            correct (4,2,3) [] {}: refusal 2 place 0 record (4,2,3,0,0,0,0) {}
            word_length (last): 12
            # as does a commit
            commit (2,2) 1 {000}: refusal 24 place 0 record (2,2,0,0,0,0,0) {000}
            word_length (last): 3
            commit (4,2,3) 0 {}: refusal 2 place 0 record (4,2,3,0,0,0,0) {}
            word_length (last): 12
            # no other call returns one
            ask (2,2) [000]: refusal 0 place 0
            encode (2,2) [0] {000}: refusal 0 place 0 {000}
            element_at (2,2) 1: refusal 0 place 0 element 3
            word_length (last): 12
            # a refused opening returns the closed record
            open 3 2 3: refusal 10 record (0,0,0,0,0,0,0)
            syndrome (last) []: refusal 21 place 0 element 0",
        );
    }

    /// Counts go on from one accepted correction to the next, whatever stands between them.
    #[test]
    fn a_record_handed_on() {
        check_lines(
            "open 3 2 1: refusal 0 record (3,2,1,0,0,0,0)
            correct (last) [010101] {}: refusal 3 place 0 record (3,2,1,0,0,0,0) {}
            correct (last) [010100] {000000}: refusal 0 place 6 record (3,2,1,1,0,0,1) {010101}
            # no codeword is near
            correct (last) [000011] {777777}: refusal 11 place 0 record (3,2,1,1,0,0,1) {777777}
            syndrome (last) [000011]: refusal 0 place 0 element 4
            correct (last) [010001] {777777}: refusal 0 place 4 record (3,2,1,2,0,1,1) {010101}
            # asking counts nothing, and a refused commit neither
            ask (last) [000001]: refusal 0 place 6
            commit (last) 0 {000001}: refusal 24 place 0 record (3,2,1,2,0,1,1) {000001}
            commit (last) 6 {000001}: refusal 0 place 6 record (3,2,1,3,0,1,2) {000000}
            commit (last) 6 {000000}: refusal 24 place 0 record (3,2,1,3,0,1,2) {000000}
            commit (last) 0 {000000}: refusal 0 place 0 record (3,2,1,4,1,1,2) {000000}",
        );
    }
}
