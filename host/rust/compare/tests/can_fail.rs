//! The comparison sees a wrong library: each stand-in is the second program with one fault.

use compare::check::{Difference, Library, Mismatch, Side, LINKED, SECOND};
use compare::guarded::GUARD;
use compare::kind::{Call, Kind};
use compare::plan::Plan;
use compare::{run, Run};
use second_c::{second_combine, second_correct, second_encode, second_third_place};

/// Enough for every call and kind with every code: two rounds of the plan, and more.
const RUN: Run = Run {
    seed: 5,
    first: 0,
    calls: 20_000,
};

/// A call with one output, its answer followed by a fault.
macro_rules! stand_in {
    ($name:ident, $call:ident,
     |$answer:ident, $word:ident, $out:ident, $out_len:ident| $fault:expr) => {
        unsafe extern "C" fn $name(
            t: u32,
            r: u32,
            $word: *const u8,
            word_len: usize,
            $out: *mut u8,
            $out_len: usize,
        ) -> i32 {
            let $answer = $call(t, r, $word, word_len, $out, $out_len);
            $fault
        }
    };
}

stand_in!(place_one_on, second_correct, |answer, _word, _out, _len| {
    if answer > 0 {
        answer + 1
    } else {
        answer
    }
});
stand_in!(
    place_in_ten_bits,
    second_correct,
    |answer, _word, _out, _len| {
        if answer > 0 {
            answer & 1023
        } else {
            answer
        }
    }
);
stand_in!(other_reason, second_encode, |answer, _word, _out, len| {
    if answer == -4 && len > 1000 {
        -3
    } else {
        answer
    }
});
stand_in!(
    first_byte_wrong,
    second_encode,
    |answer, _word, out, _len| {
        if answer == 0 {
            *out ^= 1
        }
        answer
    }
);
stand_in!(guard_before, second_correct, |answer, _word, out, _len| {
    if answer > 0 {
        *out.sub(GUARD) ^= 1
    }
    answer
});
stand_in!(guard_after, second_correct, |answer, _word, out, len| {
    if answer == -4 {
        *out.add(len) ^= 1
    }
    answer
});
stand_in!(
    writes_when_refused,
    second_encode,
    |answer, _word, out, len| {
        if answer == -4 && len > 0 {
            *out ^= 1
        }
        answer
    }
);
stand_in!(further_byte, second_encode, |answer, _word, out, len| {
    if answer == 0 {
        *out.add(len - 1) ^= 0x80
    }
    answer
});
stand_in!(input_changed, second_correct, |answer, word, _out, _len| {
    if answer == 0 {
        *word.cast_mut() ^= 1
    }
    answer
});

stand_in!(input_guard, second_encode, |answer, word, _out, _len| {
    if answer == 0 {
        *word.cast_mut().sub(1) ^= 1
    }
    answer
});

unsafe extern "C" fn last_byte_wrong(
    t: u32,
    r: u32,
    first: *const u8,
    first_len: usize,
    second: *const u8,
    second_len: usize,
    out: *mut u8,
    out_len: usize,
) -> i32 {
    let answer = second_combine(t, r, first, first_len, second, second_len, out, out_len);
    if answer == 0 {
        *out.add(first_len - 1) ^= 1;
    }
    answer
}

unsafe extern "C" fn third_of_equal(t: u32, r: u32, i: u32, j: u32) -> i32 {
    if i == j {
        0
    } else {
        second_third_place(t, r, i, j)
    }
}

/// r = 0 as opening a record takes it.
unsafe extern "C" fn smallest_r(t: u32, r: u32, i: u32, j: u32) -> i32 {
    second_third_place(t, if r == 0 { t.div_ceil(2) } else { r }, i, j)
}

/// The limit as it was before request C-15.
unsafe extern "C" fn limit_ten(t: u32, r: u32, i: u32, j: u32) -> i32 {
    if t > 10 {
        -1
    } else {
        second_third_place(t, r, i, j)
    }
}

/// A limit that is too high by one, with some answer to places that a code of t = 12 would have.
unsafe extern "C" fn limit_thirteen(t: u32, r: u32, i: u32, j: u32) -> i32 {
    if t == 13 && (7..=13).contains(&r) {
        second_third_place(12, 12, i, j)
    } else {
        second_third_place(t, r, i, j)
    }
}

fn mismatch(wrong: Library) -> Mismatch {
    *run(RUN, &wrong, &SECOND, |_| {}).expect_err("a wrong library")
}

/// The buffer, and the offset from its start, where the library changed a byte to be kept.
fn changed(mismatch: &Mismatch) -> (usize, isize) {
    match mismatch.difference {
        Difference::Kept {
            side: Side::Library,
            buffer,
            change,
        } => (buffer, change.offset),
        other => panic!("{other:?}"),
    }
}

#[test]
fn nothing_wrong() {
    assert!(run(RUN, &SECOND, &SECOND, |_| {}).is_ok());
}

#[test]
fn wrong_answers() {
    let found = mismatch(Library {
        correct: place_one_on,
        ..SECOND
    });
    assert_eq!(
        (found.difference, found.case.call),
        (Difference::Answer, Call::Correct)
    );
    assert_eq!(found.library, found.second + 1);
    let found = mismatch(Library {
        encode: other_reason,
        ..SECOND
    });
    assert_eq!(
        (found.library, found.second, found.difference),
        (-3, -4, Difference::Answer)
    );
    let found = mismatch(Library {
        third_place: third_of_equal,
        ..SECOND
    });
    assert_eq!((found.library, found.case.call), (0, Call::ThirdPlace));
    let found = mismatch(Library {
        third_place: smallest_r,
        ..SECOND
    });
    assert_eq!((found.case.kind, found.case.r), (Kind::ZeroR, 0));
}

/// The codes of t = 11 and 12 left out, taken for shorter ones, or one t more.
#[test]
fn wrong_limits() {
    let found = mismatch(Library {
        third_place: limit_ten,
        ..SECOND
    });
    assert_eq!((found.case.t, found.library), (11, -1));
    let found = mismatch(Library {
        correct: place_in_ten_bits,
        ..SECOND
    });
    assert!(found.second > 1023 && found.case.t > 10);
    let found = mismatch(Library {
        third_place: limit_thirteen,
        ..SECOND
    });
    assert_eq!((found.case.t, found.second), (13, -1));
    assert_ne!(found.library, -1);
}

#[test]
fn wrong_output_bytes() {
    let found = mismatch(Library {
        encode: first_byte_wrong,
        ..SECOND
    });
    assert!(matches!(found.difference, Difference::Output(change) if change.offset == 0));
    let found = mismatch(Library {
        combine: last_byte_wrong,
        ..SECOND
    });
    let last = found.case.length as isize - 1;
    assert!(matches!(found.difference, Difference::Output(change) if change.offset == last));
}

#[test]
fn touched_guard_bytes() {
    let found = mismatch(Library {
        correct: guard_before,
        ..SECOND
    });
    assert_eq!(changed(&found), (0, -(GUARD as isize)));
    let found = mismatch(Library {
        correct: guard_after,
        ..SECOND
    });
    assert_eq!(changed(&found), (0, found.case.length as isize));
    let found = mismatch(Library {
        encode: input_guard,
        ..SECOND
    });
    assert_eq!(changed(&found), (1, -1));
}

/// The second program's own buffers are watched too.
#[test]
fn a_wrong_second_program() {
    let wrong = Library {
        correct: guard_before,
        ..SECOND
    };
    let found = run(RUN, &SECOND, &wrong, |_| {}).expect_err("a wrong second program");
    let Difference::Kept { side, buffer, .. } = found.difference else {
        panic!("{found}");
    };
    assert_eq!((side, buffer), (Side::Second, 0));
}

#[test]
fn written_bytes_that_had_to_be_kept() {
    let found = mismatch(Library {
        encode: writes_when_refused,
        ..SECOND
    });
    assert_eq!((changed(&found), found.second), ((0, 0), -4));
    let found = mismatch(Library {
        correct: input_changed,
        ..SECOND
    });
    assert_eq!(changed(&found), (1, 0));
}

/// Found first in an output of n bytes, where it is an output byte, so this one starts later:
/// at the first case of a longer output.
#[test]
fn further_byte_of_a_longer_output() {
    let cell = (Call::Encode, Kind::LongerOutput);
    let first = Plan::new().first(cell).expect("a cell");
    let wrong = Library {
        encode: further_byte,
        ..SECOND
    };
    let asked = Run { first, ..RUN };
    let found = *run(asked, &wrong, &SECOND, |_| {}).expect_err("a wrong library");
    let (buffer, offset) = changed(&found);
    assert_eq!((buffer, found.case.number), (0, first));
    assert_eq!(offset, found.case.out.expect("an output") as isize - 1);
    assert!(offset >= found.case.length as isize);
}

/// The same mismatch whatever the threads do, and a text to repeat it from.
#[test]
fn the_first_mismatch_in_full() {
    let wrong = Library {
        correct: guard_after,
        ..SECOND
    };
    let found = mismatch(wrong);
    assert!((0..5).all(|_| mismatch(wrong).case.number == found.case.number));
    let alone = Run {
        first: found.case.number,
        calls: 1,
        ..RUN
    };
    assert!(run(alone, &wrong, &SECOND, |_| {}).is_err());
    assert!(run(alone, &LINKED, &SECOND, |_| {}).is_ok());
    let text = found.to_string();
    let case = &found.case;
    for part in [
        format!("case {} of seed 5", case.number),
        format!("call Correct t {} r {}", case.t, case.r),
        format!("input 1 of length {} ", case.length),
        "answers: library -4, second program -4".into(),
        format!("Library changed byte {} of the output: ", case.length),
    ] {
        assert!(text.contains(&part), "{part:?} is not in:\n{text}");
    }
}
