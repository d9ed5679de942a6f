//! Every case of document 01 that this program has a call for, and those of requests C-11,
//! C-13 and C-15.

use super::{combine, correct, encode, flipped, invert, layout, open, word};

#[test]
fn layouts() {
    assert_eq!(layout(&open(2, 1)), [2, 3, 1]);
    assert_eq!(layout(&open(2, 2)), [3, 1, 2]);
    assert_eq!(layout(&open(3, 2)), [4, 5, 7, 3, 1, 6, 2]);
    assert_eq!(
        layout(&open(4, 2)),
        [2, 8, 10, 15, 5, 14, 6, 11, 9, 7, 13, 3, 1, 12, 4]
    );
}

#[test]
fn parameters() {
    let sizes = |t, r| {
        let code = open(t, r);
        (code.t(), code.r(), code.length(), code.message_length())
    };
    assert_eq!(sizes(2, 1), (2, 1, 3, 1));
    assert_eq!(sizes(2, 2), (2, 2, 3, 1));
    assert_eq!(sizes(3, 2), (3, 2, 7, 4));
    assert_eq!(sizes(4, 2), (4, 2, 15, 11));
    assert_eq!(sizes(10, 5), (10, 5, 1_023, 1_013));
    assert_eq!(sizes(10, 10), (10, 10, 1_023, 1_013));
    assert_eq!(sizes(11, 6), (11, 6, 2_047, 2_036));
    assert_eq!(sizes(12, 6), (12, 6, 4_095, 4_083));
    assert_eq!(sizes(12, 12), (12, 12, 4_095, 4_083));
    assert_eq!(sizes(2, 0), (2, 1, 3, 1));
    assert_eq!(sizes(3, 0), (3, 2, 7, 4));
    assert_eq!(sizes(11, 0), (11, 6, 2_047, 2_036));
    assert_eq!(sizes(12, 0), (12, 6, 4_095, 4_083));
}

#[test]
fn encoding_in_3_2() {
    let code = open(3, 2);
    for (message, codeword) in [
        ("0000", "0000000"),
        ("1000", "1000011"),
        ("0100", "0100111"),
        ("0010", "0010101"),
        ("0001", "0001110"),
        ("1111", "1111111"),
        ("1010", "1010110"),
    ] {
        assert_eq!(encode(&code, &word(message)), word(codeword), "{message}");
        assert_eq!(
            code.read_message(&word(codeword)),
            word(message),
            "{codeword}"
        );
    }
}

#[test]
fn encoding_in_2_1_and_2_2() {
    assert_eq!(encode(&open(2, 1), &word("1")), word("111"));
    assert_eq!(encode(&open(2, 2), &word("1")), word("111"));
}

#[test]
fn correction_in_3_2() {
    let code = open(3, 2);
    for (received, syndrome, place, codeword) in [
        ("0011110", 3, 3, "0001110"),
        ("0000011", 4, 1, "1000011"),
        ("0000001", 2, 7, "0000000"),
        ("0001110", 0, 0, "0001110"),
    ] {
        let y = word(received);
        assert_eq!(code.syndrome(&y), Ok(syndrome), "{received}");
        assert_eq!(correct(&code, &y), (place, word(codeword)), "{received}");
    }
}

#[test]
fn combining_and_inverse_in_3_2() {
    let code = open(3, 2);
    let (first, second) = (word("0001110"), word("0010101"));
    assert_eq!(combine(&code, &first, &second), word("0000000"));
    assert_eq!(combine(&code, &first, &first), word("0011011"));
    assert_eq!(invert(&code, &first), second);
    assert_eq!(invert(&code, &word("1101110")), word("1110101"));
}

#[test]
fn third_places_in_3_2() {
    let code = open(3, 2);
    assert_eq!(code.third_place(1, 2), Ok(5));
    assert_eq!(code.third_place(3, 6), Ok(2));
    assert_eq!(code.third_place(3, 5), Ok(7));
}

#[test]
fn reading_shows_the_word_itself() {
    let code = open(3, 2);
    let codeword = word("1010110");
    assert!(std::ptr::eq(code.read_message(&codeword), &codeword[..4]));
    assert!(code.read_message(&word("1010111")).is_empty());
    assert!(code.read_message(&word("101011")).is_empty());
    assert!(code.read_message(&word("1010112")).is_empty());
}

/// "Plausible, and wrong": what each shortcut would give, and that it is not given.
#[test]
fn plausible_and_wrong() {
    let code = open(3, 2);

    // Syndrome 3 stands at place 4, but flipping place 4 does not help.
    let received = word("0011110");
    assert_eq!(code.element_number(4), Ok(3));
    assert_eq!(code.syndrome(&flipped(&received, 4)), Ok(4));
    assert_ne!(correct(&code, &received).1, flipped(&received, 4));

    // Check digits without the sign.
    assert_eq!(code.syndrome(&word("0010110")), Ok(4));
    assert_ne!(encode(&code, &word("0010")), word("0010110"));

    // Combining by plain addition.
    let codeword = word("0001110");
    assert_ne!(combine(&code, &codeword, &codeword), word("0000000"));

    // Digit 1 is 01, not 10: the second place of the last pair has element 2, not 6.
    assert_eq!(code.syndrome(&word("0000001")), Ok(2));
    assert_eq!(code.syndrome(&word("0000010")), Ok(6));
}
