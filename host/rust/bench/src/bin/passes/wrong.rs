//! The comparison sees a wrong call: each is the new call with one fault.

use crate::agree::compare;
use crate::calls::{Calls, COPIES};
use bench::coder::{Correct, Corrected, Record};
use second::Code;

/// The new call, followed by a fault.
macro_rules! wrong {
    ($name:ident, |$told:ident, $out:ident, $len:ident| $fault:block) => {
        unsafe extern "C" fn $name(
            record: Record,
            word: *const u8,
            word_len: usize,
            $out: *mut u8,
            $len: usize,
        ) -> Corrected {
            let mut right = (COPIES[0].new)(record, word, word_len, $out, $len);
            let $told = &mut right;
            $fault
            right
        }
    };
}

wrong!(refusal, |told, _out, _len| {
    if told.refusal == 11 {
        told.refusal = 23
    }
});
wrong!(place, |told, _out, _len| {
    if told.place > 1 {
        told.place -= 1
    }
});
wrong!(bad_place, |told, _out, _len| {
    if told.refusal == 4 {
        told.place += 1
    }
});
wrong!(count, |told, _out, _len| {
    if told.refusal == 0 {
        told.record.clean ^= 1
    }
});
wrong!(refused_counted, |told, _out, _len| {
    if told.refusal == 4 {
        told.record.words += 1
    }
});
wrong!(first_byte, |told, out, _len| {
    if told.refusal == 0 {
        *out ^= 1
    }
});
wrong!(beyond_the_word, |told, out, len| {
    if told.refusal == 0 && len > 31 {
        *out.add(31) ^= 1
    }
});
wrong!(before_the_output, |told, out, _len| {
    if told.refusal == 2 {
        *out.sub(1) ^= 1
    }
});
wrong!(after_the_output, |told, out, len| {
    if told.refusal == 3 && len == 30 {
        *out.add(30) ^= 1
    }
});

/// What is said first of a wrong call in the second of two copies.
fn found(new: Correct) -> String {
    let copies = [COPIES[0], Calls { new, ..COPIES[1] }];
    let code = Code::open(5, 3, 0).expect("admitted");
    let differences = compare(&code, &copies).differences;
    let first = differences.first().expect("a difference");
    let (named, rest) = first.split_once(", copy 2: ").expect("the second copy");
    assert!(named.starts_with("t = 5, r = 3, s = "), "{named}");
    let what = rest.strip_prefix("the call as it was and the new one: ");
    what.expect("the two calls").to_owned()
}

#[test]
fn what_is_told_wrong_is_found_out() {
    assert_eq!(found(refusal), "refusal 11 and 23");
    assert!(found(place).starts_with("place "));
    assert_eq!(found(bad_place), "place 1 and 2");
    assert!(found(count).contains("clean: 1") && found(count).contains("clean: 0"));
    assert!(found(refused_counted).contains(" and Record { t: 5, r: 3, s: 0, words: 1"));
}

#[test]
fn what_is_written_wrong_is_found_out() {
    assert!(found(first_byte).starts_with("byte 1 of the output is "));
    assert!(found(beyond_the_word).starts_with("byte 32 of the output is "));
    assert!(found(before_the_output).starts_with("byte 0 of the output is "));
    assert!(found(after_the_output).starts_with("byte 31 of the output is "));
}

/// Where both calls are wrong alike, the second program tells.
#[test]
fn the_second_program_is_asked_too() {
    let both = Calls {
        as_it_was: bad_place,
        new: bad_place,
    };
    let code = Code::open(5, 3, 0).expect("admitted");
    let differences = compare(&code, &[both]).differences;
    let first = differences.first().expect("a difference");
    assert!(first.ends_with("the second program and the call as it was: place 1 and 2"));
}
