//! The answer to each call. What refuses a record refuses every call with it before anything
//! else, so each call begins with the record's code.

use crate::print;
use second::{Code, Record, Refusal};

/// What is printed for a call, and the record that it returned: opening, correction and commit do.
pub struct Answer {
    pub text: String,
    pub record: Option<Record>,
}

/// A refused opening returns the closed record.
pub fn open(t: u32, r: u32, s: u32) -> Answer {
    let (number, record) = match Code::open(t, r, s) {
        Ok(code) => (0, Record::of(&code)),
        Err(refusal) => (refusal.number, Record::default()),
    };
    Answer {
        text: format!("refusal {number} record {}", print::record(&record)),
        record: Some(record),
    }
}

pub fn element_at(record: &Record, place: u32) -> Answer {
    element(record.code().and_then(|code| code.element_number(place)))
}

/// A length, 0 where the record is refused.
pub fn length(record: &Record, of: fn(&Code) -> usize) -> Answer {
    let length = record.code().map_or(0, |code| of(&code));
    without_record(length.to_string())
}

pub fn third_place(record: &Record, i: u32, j: u32) -> Answer {
    let place = record.code().and_then(|code| code.third_place(i, j));
    without_record(print::told(place))
}

pub fn syndrome(record: &Record, word: &[u8]) -> Answer {
    element(record.code().and_then(|code| code.syndrome(word)))
}

pub fn is_codeword(record: &Record, word: &[u8]) -> Answer {
    let syndrome = record.code().and_then(|code| code.syndrome(word));
    let test = if syndrome == Ok(0) { "yes" } else { "no" };
    let told = print::told(syndrome.map(|_| 0));
    without_record(format!("{told} {test}"))
}

/// Nothing is told here but what is shown.
pub fn read_message(record: &Record, word: &[u8]) -> Answer {
    let code = record.code();
    let shown = code.map_or(&[][..], |code| code.read_message(word));
    without_record(format!("[{}]", print::bytes(shown)))
}

pub fn encode(record: &Record, message: &[u8], out: &[u8]) -> Answer {
    written(record, out, |code, out| code.encode(message, out))
}

pub fn correct(record: &Record, word: &[u8], out: &[u8]) -> Answer {
    counted(record, out, |out| record.correct(word, out))
}

pub fn ask(record: &Record, word: &[u8]) -> Answer {
    without_record(print::told(record.ask(word)))
}

/// The word is printed as the call left it.
pub fn commit(record: &Record, place: u32, word: &[u8]) -> Answer {
    counted(record, word, |word| record.commit(place, word))
}

pub fn combine(record: &Record, first: &[u8], second: &[u8], out: &[u8]) -> Answer {
    written(record, out, |code, out| code.combine(first, second, out))
}

pub fn invert(record: &Record, word: &[u8], out: &[u8]) -> Answer {
    written(record, out, |code, out| code.invert(word, out))
}

fn without_record(text: String) -> Answer {
    Answer { text, record: None }
}

/// An element's number, 0 where the call is refused. An accepted call tells no place.
fn element(number: Result<u32, Refusal>) -> Answer {
    let told = print::told(number.map(|_| 0));
    without_record(format!("{told} element {}", number.unwrap_or(0)))
}

/// A call that tells no place and writes to an output, all of which is printed.
fn written<F>(record: &Record, out: &[u8], call: F) -> Answer
where
    F: FnOnce(&Code, &mut [u8]) -> Result<(), Refusal>,
{
    let mut out = out.to_vec();
    let answer = record.code().and_then(|code| call(&code, &mut out));
    let told = print::told(answer.map(|()| 0));
    without_record(format!("{told} {{{}}}", print::bytes(&out)))
}

/// A call that counts: it returns the record counted on or, where it is refused, the one that it
/// was given. All that was own to be written is printed.
pub fn counted<F>(record: &Record, own: &[u8], call: F) -> Answer
where
    F: FnOnce(&mut [u8]) -> Result<(u32, Record), Refusal>,
{
    let mut own = own.to_vec();
    let answer = call(&mut own);
    let told = print::told(answer.map(|(place, _)| place));
    let returned = answer.map_or(*record, |(_, counted)| counted);
    let (shown, bytes) = (print::record(&returned), print::bytes(&own));
    Answer {
        text: format!("{told} record {shown} {{{bytes}}}"),
        record: Some(returned),
    }
}

#[cfg(test)]
mod tests {
    use crate::tests::check_lines;

    #[test]
    fn opening() {
        check_lines(
            "open 3 2 0: refusal 0 record (3,2,0,0,0,0,0)
            open 3 2 2: refusal 0 record (3,2,2,0,0,0,0)
            open 4 0 0: refusal 0 record (4,2,0,0,0,0,0)
            open 0 0 0: refusal 1 record (0,0,0,0,0,0,0)
            open 5 2 4294967295: refusal 1 record (0,0,0,0,0,0,0)
            open 3 2 3: refusal 10 record (0,0,0,0,0,0,0)",
        );
    }

    #[test]
    fn elements() {
        check_lines(
            "element_at (3,2) 1: refusal 0 place 0 element 4
            element_at (3,2) 7: refusal 0 place 0 element 2
            element_at (3,2,1) 1: refusal 0 place 0 element 5
            element_at (3,2) 0: refusal 5 place 0 element 0
            element_at (3,2) 8: refusal 5 place 0 element 0
            element_at (3,2,1) 7: refusal 5 place 0 element 0
            syndrome (3,2) [0011110]: refusal 0 place 0 element 3
            syndrome (3,2) [1010110]: refusal 0 place 0 element 0
            syndrome (3,2,1) [000011]: refusal 0 place 0 element 4
            syndrome (3,2,1) [0000112]: refusal 2 place 0 element 0
            syndrome (3,2) [00<255>0200]: refusal 4 place 3 element 0",
        );
    }

    /// A full record has its lengths all the same.
    #[test]
    fn lengths() {
        check_lines(
            "word_length (3,2): 7
            word_length (12,6,1): 4094
            word_length (3,2,2,4294967295,0,4294967295): 5
            message_length (3,2): 4
            message_length (12,6,1): 4082
            message_length (3,2,2,4294967295,0,4294967295): 2",
        );
    }

    #[test]
    fn third_places() {
        check_lines(
            "third_place (3,2) 1 2: refusal 0 place 5
            third_place (3,2) 0 0: refusal 5 place 0
            third_place (3,2) 1 8: refusal 5 place 0
            third_place (3,2,1) 7 7: refusal 5 place 0
            third_place (3,2) 7 7: refusal 6 place 0
            third_place (3,2,1) 1 4: refusal 11 place 0",
        );
    }

    #[test]
    fn codewords() {
        check_lines(
            "is_codeword (3,2) [1010110]: refusal 0 place 0 yes
            is_codeword (3,2) [1010111]: refusal 0 place 0 no
            is_codeword (3,2) [101011]: refusal 2 place 0 no
            is_codeword (3,2) [0000002]: refusal 4 place 7 no
            read_message (3,2) [1010110]: [1010]
            read_message (3,2,1) [010101]: [010]
            read_message (3,2) [1010111]: []
            read_message (3,2) [101011]: []
            read_message (3,2) [0000002]: []",
        );
    }

    #[test]
    fn encoding() {
        check_lines(
            "encode (3,2) [1010] {9999999}: refusal 0 place 0 {1010110}
            encode (3,2) [1010] {<77>999999<10>9}: refusal 0 place 0 {1010110<10>9}
            encode (3,2,1) [010] {9999999}: refusal 0 place 0 {0101019}
            encode (3,2) [102] {}: refusal 2 place 0 {}
            encode (3,2) [1012] {9<10>}: refusal 3 place 0 {9<10>}
            encode (3,2) [1212] {9999999}: refusal 4 place 2 {9999999}",
        );
    }

    #[test]
    fn corrections() {
        check_lines(
            "correct (3,2) [0011110] {99999999}: refusal 0 place 3 record (3,2,0,1,0,0,1) {00011109}
            correct (2,2,0,5,1,2,2) [011] {999}: refusal 0 place 1 record (2,2,0,6,1,3,2) {111}
            correct (2,2,0,5,1,2,2) [111] {999}: refusal 0 place 0 record (2,2,0,6,2,2,2) {111}",
        );
    }

    /// The record R is returned as it was given; that it is full is the last reason.
    #[test]
    fn refused_corrections() {
        let refused = "correct R [00002] {}: refusal 2 place 0 record R {}
            correct R [000021] {<77>9999}: refusal 3 place 0 record R {<77>9999}
            correct R [000021] {999999}: refusal 4 place 5 record R {999999}
            correct R [000011] {999999}: refusal 11 place 0 record R {999999}
            correct R [110101] {9999999}: refusal 23 place 0 record R {9999999}";
        check_lines(&refused.replace('R', "(3,2,1,4294967295,4294967293,0,2)"));
    }

    #[test]
    fn asking() {
        check_lines(
            "ask (3,2) [0011110]: refusal 0 place 3
            ask (3,2) [0001110]: refusal 0 place 0
            ask (3,2,0,4294967295,0,4294967295) [0000011]: refusal 0 place 1
            ask (3,2,1) [000112]: refusal 4 place 6
            ask (3,2,1) [00002]: refusal 2 place 0
            ask (3,2,1) [000011]: refusal 11 place 0",
        );
    }

    #[test]
    fn commits() {
        check_lines(
            "commit (3,2) 3 {0011110}: refusal 0 place 3 record (3,2,0,1,0,0,1) {0001110}
            commit (2,2,0,5,1,2,2) 1 {011}: refusal 0 place 1 record (2,2,0,6,1,3,2) {111}
            commit (2,2,0,5,1,2,2) 0 {111}: refusal 0 place 0 record (2,2,0,6,2,2,2) {111}",
        );
    }

    /// Of a commit with the record R, which is full, 24 is the last reason but one.
    #[test]
    fn refused_commits() {
        let refused = "commit R 5 {00002}: refusal 2 place 0 record R {00002}
            commit R 5 {0000<77>1}: refusal 4 place 5 record R {0000<77>1}
            commit R 5 {000011}: refusal 11 place 0 record R {000011}
            commit R 0 {010100}: refusal 24 place 0 record R {010100}
            commit R 5 {010100}: refusal 24 place 0 record R {010100}
            commit R 7 {010100}: refusal 24 place 0 record R {010100}
            commit R 4294967295 {010100}: refusal 24 place 0 record R {010100}
            commit R 6 {010100}: refusal 23 place 0 record R {010100}";
        check_lines(&refused.replace('R', "(3,2,1,4294967295,4294967293,0,2)"));
    }

    #[test]
    fn combining_and_inverse() {
        check_lines(
            "combine (3,2) [0001110] [0001110] {8888888}: refusal 0 place 0 {0011011}
            combine (3,2,1) [001110] [001110] {88888888}: refusal 0 place 0 {01101188}
            combine (3,2) [0001112] [] {}: refusal 2 place 0 {}
            combine (3,2) [0000002] [2000000] {88}: refusal 3 place 0 {88}
            combine (3,2) [0000002] [2000000] {8888888}: refusal 4 place 7 {8888888}
            combine (3,2) [0000000] [2000000] {8888888}: refusal 4 place 1 {8888888}
            invert (3,2) [1101110] {88888888}: refusal 0 place 0 {11101018}
            invert (3,2) [12] {}: refusal 2 place 0 {}
            invert (3,2) [1101112] {8}: refusal 3 place 0 {8}
            invert (3,2) [1101112] {8888888}: refusal 4 place 7 {8888888}",
        );
    }

    /// Each call, with faults of its own, where its record R is refused with N.
    const WITH_FAULTS: &str = "element_at R 0: refusal N place 0 element 0
        word_length R: 0
        message_length R: 0
        third_place R 0 0: refusal N place 0
        syndrome R [2]: refusal N place 0 element 0
        is_codeword R [2]: refusal N place 0 no
        read_message R [2]: []
        encode R [2] {8<10>}: refusal N place 0 {8<10>}
        correct R [2] {8<10>}: refusal N place 0 record R {8<10>}
        ask R [2]: refusal N place 0
        commit R 8 {8<10>}: refusal N place 0 record R {8<10>}
        combine R [2] [2] {8<10>}: refusal N place 0 {8<10>}
        invert R [2] {8<10>}: refusal N place 0 {8<10>}";

    /// The record's reasons come before the call's own.
    #[test]
    fn refused_records() {
        for (number, record) in [
            ("21", "(0,2,0,0,0,0,0)"),
            ("22", "(3,2,0,1,0,0,0)"),
            ("10", "(3,2,3,4294967295,4294967295,0,0)"),
        ] {
            check_lines(&WITH_FAULTS.replace('N', number).replace('R', record));
        }
    }

    /// Zeros are a codeword of the longest code, and of one that leaves out a place.
    #[test]
    fn long_words() {
        let zeros = |length| "0".repeat(length);
        let (word, message) = (zeros(4_095), zeros(4_083));
        check_lines(&format!("read_message (12,6) [{word}]: [{message}]"));
        let (message, word, nines) = (zeros(4_082), zeros(4_094), "9".repeat(4_095));
        check_lines(&format!(
            "encode (12,6,1) [{message}] {{{nines}}}: refusal 0 place 0 {{{word}9}}"
        ));
    }
}
