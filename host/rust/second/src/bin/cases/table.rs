//! The table of calls.

use crate::calls::{ask, combine, commit, correct, element_at, encode, invert, is_codeword};
use crate::calls::{length, open, read_message, syndrome, third_place, Answer};
use crate::line::Argument;
use second::Code;

/// A call's name, the kinds of its arguments in their order, and its answer. There is none for
/// any other name or arguments.
pub fn answer(name: &[u8], arguments: &[Argument]) -> Option<Answer> {
    use Argument::{Number, Output, Record, Word};
    Some(match (name, arguments) {
        (b"open", [Number(t), Number(r), Number(s)]) => open(*t, *r, *s),
        (b"element_at", [Record(record), Number(place)]) => element_at(record, *place),
        (b"word_length", [Record(record)]) => length(record, Code::length),
        (b"message_length", [Record(record)]) => length(record, Code::message_length),
        (b"third_place", [Record(record), Number(i), Number(j)]) => third_place(record, *i, *j),
        (b"syndrome", [Record(record), Word(word)]) => syndrome(record, word),
        (b"is_codeword", [Record(record), Word(word)]) => is_codeword(record, word),
        (b"read_message", [Record(record), Word(word)]) => read_message(record, word),
        (b"encode", [Record(record), Word(x), Output(out)]) => encode(record, x, out),
        (b"correct", [Record(record), Word(x), Output(out)]) => correct(record, x, out),
        (b"combine", [Record(record), Word(x), Word(y), Output(out)]) => combine(record, x, y, out),
        (b"invert", [Record(record), Word(x), Output(out)]) => invert(record, x, out),
        (b"ask", [Record(record), Word(word)]) => ask(record, word),
        (b"commit", [Record(record), Number(p), Output(word)]) => commit(record, *p, word),
        _ => return None,
    })
}

#[cfg(test)]
mod tests {
    use super::*;
    use crate::line;
    use second::Record;

    /// An argument of each kind.
    const KINDS: [&str; 4] = ["(0)", "0", "[]", "{}"];

    /// A call of each name, with these arguments.
    const EACH: [&str; 14] = [
        "open 0 0 0",
        "element_at (0) 0",
        "word_length (0)",
        "message_length (0)",
        "third_place (0) 0 0",
        "syndrome (0) []",
        "is_codeword (0) []",
        "read_message (0) []",
        "encode (0) [] {}",
        "correct (0) [] {}",
        "combine (0) [] [] {}",
        "invert (0) [] {}",
        "ask (0) []",
        "commit (0) 0 {}",
    ];

    /// Whether a line has a call with an answer.
    fn is_call(line: &str) -> bool {
        let read = line::read(line.as_bytes(), Record::default());
        read.is_some_and(|(name, arguments)| answer(name, &arguments).is_some())
    }

    #[test]
    fn a_name_has_one_list_of_kinds() {
        for line in EACH {
            assert!(is_call(line), "{line}");
            let (fewer, _) = line.rsplit_once(' ').expect("an argument");
            assert!(!is_call(fewer), "{fewer}");
            for kind in KINDS {
                assert!(!is_call(&format!("{line} {kind}")), "{line} {kind}");
                let fields: Vec<&str> = line.split(' ').collect();
                for index in 1..fields.len() {
                    let mut other = fields.clone();
                    other[index] = kind;
                    assert_eq!(is_call(&other.join(" ")), other == fields, "{other:?}");
                }
            }
        }
    }

    #[test]
    fn unknown_names() {
        for name in [
            "", "Open", "opened", "ope", "open:", "third", "(last)", "[]", "0",
        ] {
            for arguments in ["", " 0 0 0", " (0)", " (0) 0 0"] {
                let line = format!("{name}{arguments}");
                assert!(!is_call(&line), "{line}");
            }
        }
    }
}
