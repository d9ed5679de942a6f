//! The file of cases finds wrong programs out: each asks or commits with one fault, and answers
//! some line of crates/cases/stdin otherwise.

use crate::line::Argument::{Number, Output, Record as Given, Word};
use crate::{after, calls, line, lines, print};
use second::{Record, Refusal};

const CASES: &[u8] = include_bytes!("../../../../../../crates/cases/stdin");
const FULL: u32 = u32::MAX;

type Asked = Result<u32, Refusal>;
type Committed = Result<(u32, Record), Refusal>;
type Ask = fn(&Record, &[u8]) -> Asked;
type Commit = fn(&Record, u32, &mut [u8]) -> Committed;

/// The first line that is answered otherwise than by the second program.
fn found(ask: Ask, commit: Commit) -> Option<String> {
    let mut last = Record::default();
    for line in lines(CASES) {
        let given = last;
        // The last line but one is no call: there is nothing left then.
        let right = after(line, &mut last)?;
        let answer = answer(line, given, ask, commit);
        if answer.is_some_and(|answer| right != format!(": {answer}")) {
            return Some(line.escape_ascii().to_string());
        }
    }
    None
}

/// What is printed for a line that asks or commits.
fn answer(line: &[u8], last: Record, ask: Ask, commit: Commit) -> Option<String> {
    let (name, arguments) = line::read(line, last)?;
    match (name, &arguments[..]) {
        (b"ask", [Given(record), Word(word)]) => Some(print::told(ask(record, word))),
        (b"commit", [Given(record), Number(place), Output(word)]) => {
            let committed = calls::counted(record, word, |word| commit(record, *place, word));
            Some(committed.text)
        }
        _ => None,
    }
}

fn refused<T>(number: u32) -> Result<T, Refusal> {
    Err(Refusal { number, place: 0 })
}

fn is<T>(answer: &Result<T, Refusal>, number: u32) -> bool {
    matches!(answer, Err(refusal) if refusal.number == number)
}

/// A place that the word does not have flips none.
fn flip(place: u32, word: &mut [u8]) {
    let index = (place as usize).checked_sub(1);
    if let Some(byte) = index.and_then(|index| word.get_mut(index)) {
        *byte ^= 1;
    }
}

/// What a commit does once the place is taken for right.
fn flip_and_count(record: &Record, place: u32, word: &mut [u8]) -> Committed {
    let counted = record.counted(&record.code()?, place)?;
    flip(place, word);
    Ok((place, counted))
}

/// Whether a word has no codeword near, each byte taken for its lowest bit.
fn is_far(record: &Record, word: &[u8]) -> bool {
    let bits: Vec<u8> = word.iter().map(|byte| byte & 1).collect();
    is(&record.ask(&bits), 11)
}

/// How many bytes are left of a word that is cut to the code's length.
fn cut(record: &Record, word: &[u8]) -> usize {
    let length = record.code().map_or(0, |code| code.length());
    length.min(word.len())
}

const ASKING: [(&str, Ask); 6] = [
    ("is refused with 23", |record, word| {
        match record.ask(word)? {
            _ if record.words == FULL => refused(23),
            place => Ok(place),
        }
    }),
    ("is not refused with 11", |record, word| {
        match record.ask(word) {
            far if is(&far, 11) => Ok(0),
            other => other,
        }
    }),
    ("has 11 before 4", |record, word| {
        match is_far(record, word) {
            true => refused(11),
            false => record.ask(word),
        }
    }),
    ("gives no place with 4", |record, word| {
        match record.ask(word) {
            bad if is(&bad, 4) => refused(4),
            other => other,
        }
    }),
    (
        "gives places of the whole code",
        |record, word| match record.ask(word)? {
            0 => Ok(0),
            place => Ok(place + record.s),
        },
    ),
    ("takes longer words", |record, word| {
        record.ask(&word[..cut(record, word)])
    }),
];

const CLAIMS: [(&str, Commit); 9] = [
    ("trusts the claim", |record, place, word| {
        record.ask(word)?;
        flip_and_count(record, place, word)
    }),
    ("corrects whatever is claimed", |record, _place, word| {
        record.commit(record.ask(word)?, word)
    }),
    ("trusts a claimed 0", |record, place, word| {
        record.ask(word)?;
        match place {
            0 => flip_and_count(record, 0, word),
            _ => record.commit(place, word),
        }
    }),
    (
        "takes places beyond the word for 0",
        |record, place, word| match place as usize > word.len() {
            true => record.commit(0, word),
            false => record.commit(place, word),
        },
    ),
    (
        "takes any place of a codeword",
        |record, place, word| match record.ask(word)? {
            0 => record.commit(0, word),
            _ => record.commit(place, word),
        },
    ),
    (
        "takes the place given with 4",
        |record, place, word| match record.ask(word) {
            Err(refusal) if refusal.number == 4 && refusal.place == place => {
                flip_and_count(record, place, word)
            }
            _ => record.commit(place, word),
        },
    ),
    ("takes places of the whole code", |record, place, word| {
        record.commit(place.saturating_sub(record.s), word)
    }),
    ("keeps sixteen bits of the claim", |record, place, word| {
        record.commit(place % (1 << 16), word)
    }),
    (
        "keeps thirty-one bits of the claim",
        |record, place, word| record.commit(place % (1 << 31), word),
    ),
];

const REFUSALS: [(&str, Commit); 9] = [
    (
        "is refused with 5 beyond the word",
        |record, place, word| {
            record.ask(word)?;
            match place as usize > word.len() {
                true => refused(5),
                false => record.commit(place, word),
            }
        },
    ),
    ("is refused with 5 for 0", |record, place, word| {
        record.ask(word)?;
        match place {
            0 => refused(5),
            _ => record.commit(place, word),
        }
    }),
    ("has 24 before 11", |record, place, word| {
        match record.commit(place, word) {
            far if is(&far, 11) && place != 0 => refused(24),
            other => other,
        }
    }),
    ("has 23 before 24", |record, place, word| {
        match record.commit(place, word) {
            wrong if is(&wrong, 24) && record.words == FULL => refused(23),
            other => other,
        }
    }),
    ("has 23 before 11", |record, place, word| {
        match record.commit(place, word) {
            far if is(&far, 11) && record.words == FULL => refused(23),
            other => other,
        }
    }),
    ("has 11 before 4", |record, place, word| {
        match is_far(record, word) {
            true => refused(11),
            false => record.commit(place, word),
        }
    }),
    ("is not refused with 23", |record, place, word| {
        let answer = record.commit(place, word);
        if !is(&answer, 23) {
            return answer;
        }
        flip(place, word);
        Ok((place, *record))
    }),
    (
        "flips where it is refused with 23",
        |record, place, word| {
            let answer = record.commit(place, word);
            if is(&answer, 23) {
                flip(place, word);
            }
            answer
        },
    ),
    ("takes longer words", |record, place, word| {
        let length = cut(record, word);
        record.commit(place, &mut word[..length])
    }),
];

const COUNTS: [(&str, Commit); 4] = [
    ("does not count", |record, place, word| {
        let (place, _) = record.commit(place, word)?;
        Ok((place, *record))
    }),
    ("does not count 0", |record, place, word| {
        match record.commit(place, word)? {
            (0, _) => Ok((0, *record)),
            other => Ok(other),
        }
    }),
    (
        "counts by places of the whole code",
        |record, place, word| {
            let (place, _) = record.commit(place, word)?;
            let whole = Record { s: 0, ..*record };
            Ok((place, record.counted(&whole.code()?, place)?))
        },
    ),
    ("gives no place", |record, place, word| {
        let (_, counted) = record.commit(place, word)?;
        Ok((0, counted))
    }),
];

#[test]
fn the_right_ones_are_not_found() {
    assert_eq!(found(Record::ask, Record::commit), None);
}

#[test]
fn wrong_asking_is_found_out() {
    for (fault, ask) in ASKING {
        let line = found(ask, Record::commit).expect(fault);
        assert!(line.starts_with("ask "), "{fault}: {line}");
    }
}

#[test]
fn wrong_commits_are_found_out() {
    let all = CLAIMS.into_iter().chain(REFUSALS).chain(COUNTS);
    for (fault, commit) in all {
        let line = found(Record::ask, commit).expect(fault);
        assert!(line.starts_with("commit "), "{fault}: {line}");
    }
}
