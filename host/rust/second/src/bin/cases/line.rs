//! How a call is read from its line: fields with one space between two, the name of the call and
//! its arguments. Whatever cannot be read is None.

use second::Record;

#[derive(Debug, PartialEq)]
pub enum Argument {
    Record(Record),
    Number(u32),
    /// What a call reads.
    Word(Vec<u8>),
    /// What a call writes to, with the bytes that it holds before: a commit's is its word.
    Output(Vec<u8>),
}

/// The name, of which nothing is asked yet, and the arguments. A space too many leaves a name or
/// an argument empty, and no call has such a one.
pub fn read(line: &[u8], last: Record) -> Option<(&[u8], Vec<Argument>)> {
    let mut fields = line.split(|&byte| byte == b' ');
    let name = fields.next()?;
    let arguments: Option<Vec<Argument>> = fields.map(|field| argument(field, last)).collect();
    Some((name, arguments?))
}

fn argument(field: &[u8], last: Record) -> Option<Argument> {
    match field {
        b"(last)" => Some(Argument::Record(last)),
        [b'(', inside @ .., b')'] => record(inside).map(Argument::Record),
        [b'[', inside @ .., b']'] => bytes(inside).map(Argument::Word),
        [b'{', inside @ .., b'}'] => bytes(inside).map(Argument::Output),
        _ => number(field).map(Argument::Number),
    }
}

/// One to seven numbers; those left off at the end are 0.
fn record(inside: &[u8]) -> Option<Record> {
    let given: Option<Vec<u32>> = inside.split(|&byte| byte == b',').map(number).collect();
    let given = given?;
    let mut fields = [0; 7];
    fields.get_mut(..given.len())?.copy_from_slice(&given);
    let [t, r, s, words, clean, corrected_binary, corrected_pairs] = fields;
    Some(Record {
        t,
        r,
        s,
        words,
        clean,
        corrected_binary,
        corrected_pairs,
    })
}

fn number(digits: &[u8]) -> Option<u32> {
    if digits.is_empty() {
        return None;
    }
    digits.iter().try_fold(0u32, |before, byte| {
        let digit = char::from(*byte).to_digit(10)?;
        before.checked_mul(10)?.checked_add(digit)
    })
}

/// The bytes of a word or an output, each a digit, or a number between `<` and `>`.
fn bytes(mut written: &[u8]) -> Option<Vec<u8>> {
    let mut bytes = Vec::new();
    while let [first, rest @ ..] = written {
        let (digits, after) = match first {
            b'<' => {
                let end = rest.iter().position(|&byte| byte == b'>')?;
                (&rest[..end], &rest[end + 1..])
            }
            _ => written.split_at(1),
        };
        bytes.push(u8::try_from(number(digits)?).ok()?);
        written = after;
    }
    Some(bytes)
}

#[cfg(test)]
mod tests {
    use super::Argument::{Number, Output, Record as Given, Word};
    use super::*;
    use crate::tests::RECORD as LAST;

    fn only(field: &str) -> Option<Argument> {
        argument(field.as_bytes(), LAST)
    }

    /// Fields with a space between two, each of which is malformed.
    fn all_malformed(fields: &str) {
        for field in fields.split(' ') {
            assert_eq!(only(field), None, "{field}");
        }
    }

    #[test]
    fn names_and_arguments() {
        for (line, name, arguments) in [
            ("call 1 2", "call", vec![Number(1), Number(2)]),
            ("call", "call", vec![]),
            (" 1", "", vec![Number(1)]),
            ("", "", vec![]),
        ] {
            let expected = Some((name.as_bytes(), arguments));
            assert_eq!(read(line.as_bytes(), LAST), expected, "{line}");
        }
    }

    #[test]
    fn malformed_fields() {
        let not_one = ["call x 1", "call 1 x", "call 1\t2", "call [0 1]"];
        let empty = [" ", " call 1", "call ", "call  1", "call 1  2", "call 1 2 "];
        for line in not_one.into_iter().chain(empty) {
            assert_eq!(read(line.as_bytes(), LAST), None, "{line}");
        }
    }

    #[test]
    fn numbers() {
        for (field, value) in [
            ("0", 0),
            ("7", 7),
            ("4095", 4_095),
            ("007", 7),
            ("4294967295", u32::MAX),
            ("00000000000000000004294967295", u32::MAX),
        ] {
            assert_eq!(only(field), Some(Number(value)), "{field}");
        }
    }

    #[test]
    fn malformed_numbers() {
        all_malformed("4294967296 4294967300 42949672950 99999999999999999999999");
        all_malformed("-1 +1 1. 1,2 0x1 1_000 a 1a / : ² <1>");
    }

    #[test]
    fn records() {
        assert_eq!(only("(1,2,3,4,5,6,4294967295)"), Some(Given(LAST)));
        for field in ["(3,2)", "(3,2,0)", "(03,002)", "(3,2,0,0,0,0,0)"] {
            assert_eq!(only(field), Some(Given(Record::fresh(3, 2, 0))), "{field}");
        }
        assert_eq!(only("(0)"), Some(Given(Record::default())));
        assert_eq!(only("(last)"), Some(Given(LAST)));
    }

    #[test]
    fn malformed_records() {
        all_malformed("() (,) (3,) (,2) (3,,2) (3,2,0,0,0,0,0,) (3,2,0,0,0,0,0,0)");
        all_malformed("(4294967296) (3,-2) (3;2) (3.2) ((3)) (3)(2) (3,2)0 0(3,2)");
        all_malformed("( ) (3,2 3,2) (3,2] [3,2) (3,2} {3,2)");
        all_malformed("last (Last) (las) (lastly) (last,2) (3,last) ((last)) [last] {last}");
    }

    #[test]
    fn words_and_outputs() {
        for (inside, bytes) in [
            ("", &[][..]),
            ("0", &[0]),
            ("0011110", &[0, 0, 1, 1, 1, 1, 0]),
            ("0123456789", &[0, 1, 2, 3, 4, 5, 6, 7, 8, 9]),
            ("<0><9><10><255><007>", &[0, 9, 10, 255, 7]),
            ("1<20>3", &[1, 20, 3]),
        ] {
            assert_eq!(only(&format!("[{inside}]")), Some(Word(bytes.to_vec())));
            assert_eq!(only(&format!("{{{inside}}}")), Some(Output(bytes.to_vec())));
        }
    }

    #[test]
    fn malformed_words() {
        let others = "a - , 0,1 ( ) [ ] { } (1) [1] {1} 1[ ]1 \u{7f} \0 ÿ";
        let angles = "< > <> <1 1> <1>> <<1> <<1>> <a> <-1> <1,2> <256> <4294967296>";
        let repeats = "<1*3> <1*1> <1*> <*1> <*> 1*3";
        for inside in [others, angles, repeats].join(" ").split(' ') {
            all_malformed(&format!("[{inside}] {{{inside}}}"));
        }
        all_malformed("[ ] { } [0} {0] [0) (0] [0]1 1[0] {0}1 1{0} <0>");
    }
}
