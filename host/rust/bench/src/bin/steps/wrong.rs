//! The comparison sees a wrong call: each is the right one with one fault.

use crate::agree::compare;
use crate::calls::{Ask, Calls, Commit, COPIES};
use bench::coder::{Answer, Corrected, Record};
use second::Code;

/// What a commit is given.
struct Claim {
    record: Record,
    place: u32,
    word: *mut u8,
    len: usize,
}

/// Asking, followed by a fault.
macro_rules! wrong_ask {
    ($name:ident, |$told:ident, $word:ident| $fault:block) => {
        unsafe extern "C" fn $name(record: Record, $word: *const u8, len: usize) -> Answer {
            let mut right = (COPIES[0].ask)(record, $word, len);
            let $told = &mut right;
            $fault
            right
        }
    };
}

/// A commit, followed by a fault.
macro_rules! wrong_commit {
    ($name:ident, |$told:ident, $claim:ident| $fault:block) => {
        unsafe extern "C" fn $name(
            record: Record,
            place: u32,
            word: *mut u8,
            len: usize,
        ) -> Corrected {
            let mut right = (COPIES[0].commit)(record, place, word, len);
            let $told = &mut right;
            let $claim = Claim {
                record,
                place,
                word,
                len,
            };
            $fault
            right
        }
    };
}

wrong_ask!(left_out_accepted, |told, _word| {
    if told.refusal == 11 {
        told.refusal = 0
    }
});
wrong_ask!(place_before, |told, _word| {
    if told.refusal == 0 && told.place > 1 {
        told.place -= 1
    }
});
wrong_ask!(bad_place_untold, |told, _word| {
    if told.refusal == 4 {
        told.place = 0
    }
});
wrong_ask!(flipping, |told, word| {
    if told.refusal == 0 {
        *word.cast_mut() ^= 1
    }
});

wrong_commit!(trusting, |told, claim| {
    if told.refusal == 24 {
        (told.refusal, told.place) = (0, claim.place)
    }
});
wrong_commit!(full_first, |told, claim| {
    if told.refusal == 24 && claim.record.words == u32::MAX {
        told.refusal = 23
    }
});
wrong_commit!(claim_told, |told, claim| {
    if told.refusal == 24 {
        told.place = claim.place
    }
});
wrong_commit!(uncounted, |told, claim| {
    if told.refusal == 0 {
        told.record = claim.record
    }
});
wrong_commit!(refused_counted, |told, _claim| {
    if told.refusal == 24 {
        told.record.words += 1
    }
});
wrong_commit!(unflipped, |told, claim| {
    if told.refusal == 0 && claim.place > 0 {
        *claim.word.add(claim.place as usize - 1) ^= 1
    }
});
wrong_commit!(refused_flipped, |told, claim| {
    if told.refusal == 24 && (1..=claim.len).contains(&(claim.place as usize)) {
        *claim.word.add(claim.place as usize - 1) ^= 1
    }
});
wrong_commit!(before_the_word, |told, claim| {
    if told.refusal == 0 && claim.place == 0 {
        *claim.word.sub(1) ^= 1
    }
});
wrong_commit!(after_the_word, |told, claim| {
    if told.refusal == 24 && claim.place as usize == claim.len + 1 {
        *claim.word.add(claim.len) ^= 1
    }
});

/// Correction that tells no place.
unsafe extern "C" fn placeless(
    record: Record,
    word: *const u8,
    word_len: usize,
    out: *mut u8,
    len: usize,
) -> Corrected {
    let right = (COPIES[0].correct)(record, word, word_len, out, len);
    Corrected { place: 0, ..right }
}

/// What is said first of a wrong call in the second of two copies: which call, and what differs.
fn found(wrong: Calls) -> String {
    let code = Code::open(5, 3, 0).expect("admitted");
    let differences = compare(&code, &[COPIES[0], wrong]).differences;
    let first = differences.first().expect("a difference");
    let (named, rest) = first.split_once(", copy 2: ").expect("the second copy");
    assert!(named.starts_with("t = 5, r = 3, s = "), "{named}");
    let (_, call) = named.split_once(" places, ").expect("a call");
    let (call, _) = call.split_once(", counts ").expect("a record");
    let what = rest.strip_prefix("the second program and the call: ");
    format!("{call}: {}", what.expect("both"))
}

fn with_ask(ask: Ask) -> String {
    found(Calls { ask, ..COPIES[1] })
}

fn with_commit(commit: Commit) -> String {
    found(Calls {
        commit,
        ..COPIES[1]
    })
}

#[test]
fn a_wrong_correction_is_found_out() {
    let wrong = Calls {
        correct: placeless,
        ..COPIES[1]
    };
    assert_eq!(
        found(wrong),
        "correct to an output of 31 bytes: place 1 and 0"
    );
}

#[test]
fn wrong_asking_is_found_out() {
    assert_eq!(with_ask(left_out_accepted), "ask: refusal 11 and 0");
    assert!(with_ask(place_before).starts_with("ask: place "));
    assert_eq!(with_ask(bad_place_untold), "ask: place 1 and 0");
    assert!(with_ask(flipping).starts_with("ask: byte 1 of the word is "));
}

#[test]
fn what_a_commit_tells_wrong_is_found_out() {
    let counted = |clean| format!("words: {clean}, clean: {clean}, corrected_binary: 0");
    let none = with_commit(uncounted);
    assert!(none.starts_with("commit of place 0: ") && none.contains(&counted(1)));
    assert!(none.contains(&counted(0)));
    assert!(with_commit(refused_counted).contains(" and Record { t: 5, r: 3, s: 0, words: 1"));
    assert_eq!(with_commit(trusting), "commit of place 1: refusal 24 and 0");
    assert_eq!(
        with_commit(full_first),
        "commit of place 1: refusal 24 and 23"
    );
    assert_eq!(with_commit(claim_told), "commit of place 1: place 0 and 1");
}

#[test]
fn what_a_commit_writes_wrong_is_found_out() {
    assert!(with_commit(unflipped).contains(" of the word is "));
    assert!(with_commit(refused_flipped).starts_with("commit of place 1: byte 1 of the word is "));
    assert!(with_commit(before_the_word).starts_with("commit of place 0: byte 0 of the word is "));
    assert!(with_commit(after_the_word).starts_with("commit of place 32: byte 32 of the word is "));
}
