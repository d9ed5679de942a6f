//! How openings, words, answers, outputs and counts are shown.

use second::{signed, Code, Record, Refusal};

/// What every byte of an output is set to before a call.
pub const FILL: u8 = 7;

/// Four places a digit, the earlier place the higher bit, zeros after the last place; `?`
/// for a digit with a byte above 1 among its places.
pub fn hexadecimal(places: &[u8]) -> String {
    places.chunks(4).map(hexadecimal_digit).collect()
}

fn hexadecimal_digit(places: &[u8]) -> char {
    if places.iter().any(|&byte| byte > 1) {
        return '?';
    }
    let weights = [8, 4, 2, 1];
    let value: u8 = places
        .iter()
        .zip(weights)
        .map(|(byte, weight)| byte * weight)
        .sum();
    char::from(b"0123456789abcdef"[usize::from(value)])
}

/// The line of an opening: t, the r in force, s and the lengths, or the refusal.
pub fn opening(t: u32, r: u32, s: u32) -> String {
    let shown = match Code::open(t, r, s) {
        Ok(code) => format!(
            "code {} {} {} {} {}",
            code.t(),
            code.r(),
            code.s(),
            code.length(),
            code.message_length()
        ),
        Err(refusal) => format!("refused {}", refusal.number),
    };
    format!("open {t} {r} {s} {shown}\n")
}

/// The line of the call for C with t and r, admitted or not: the third place of 1 and 2.
pub fn third_for_c(t: u32, r: u32) -> String {
    let third = Code::or_hamming(t, r).and_then(|code| code.third_place(1, 2));
    format!("third {}\n", told(third))
}

/// The answer as C has it, and after it the place in a refusal, where one is told.
fn told(answer: Result<u32, Refusal>) -> String {
    match answer {
        Err(Refusal { number, place }) if place != 0 => format!("-{number} at {place}"),
        _ => signed(answer).to_string(),
    }
}

/// The answer of a call and what it left in its output, for words of n places.
pub fn outcome(answer: Result<u32, Refusal>, output: &[u8], n: usize) -> String {
    let filled = |bytes: &[u8]| bytes.iter().all(|&byte| byte == FILL);
    let shown = match answer {
        Err(_) if filled(output) => "untouched".to_string(),
        Err(_) => "altered".to_string(),
        Ok(_) if filled(&output[n..]) => hexadecimal(&output[..n]),
        Ok(_) => hexadecimal(&output[..n]) + " altered",
    };
    format!("{} {shown}", told(answer))
}

/// The record's four counts.
pub fn counts(record: &Record) -> String {
    format!(
        "counts {} {} {} {}",
        record.words, record.clean, record.corrected_binary, record.corrected_pairs
    )
}

#[cfg(test)]
mod tests {
    use super::*;

    const REFUSED: Result<u32, Refusal> = Err(Refusal {
        number: 4,
        place: 0,
    });

    #[test]
    fn openings() {
        assert_eq!(opening(3, 2, 1), "open 3 2 1 code 3 2 1 6 3\n");
        assert_eq!(opening(4, 0, 0), "open 4 0 0 code 4 2 0 15 11\n");
        assert_eq!(opening(3, 2, 3), "open 3 2 3 refused 10\n");
    }

    #[test]
    fn thirds_for_c() {
        assert_eq!(third_for_c(3, 2), "third 5\n");
        assert_eq!(third_for_c(3, 3), "third 3\n");
        assert_eq!(third_for_c(3, 0), "third 3\n");
        assert_eq!(third_for_c(4, 5), "third -1\n");
        assert_eq!(third_for_c(1, 0), "third -1\n");
    }

    #[test]
    fn words_in_hexadecimal() {
        assert_eq!(hexadecimal(&[1, 1, 0]), "c");
        assert_eq!(hexadecimal(&[1, 0, 1, 0, 1, 1, 1]), "ae");
        assert_eq!(hexadecimal(&[0, 0, 0, 1, 0, 1, 7, 0, 1]), "1?8");
        assert_eq!(hexadecimal(&[]), "");
    }

    #[test]
    fn accepted_outcomes() {
        assert_eq!(outcome(Ok(3), &[1, 1, 0, 7, 7], 3), "3 c");
        assert_eq!(outcome(Ok(0), &[1, 1, 0, 7, 0], 3), "0 c altered");
    }

    #[test]
    fn refused_outcomes() {
        assert_eq!(outcome(REFUSED, &[7, 7, 7], 3), "-4 untouched");
        assert_eq!(outcome(REFUSED, &[7, 0, 7], 3), "-4 altered");
        assert_eq!(outcome(REFUSED, &[], 3), "-4 untouched");
        let told = REFUSED.map_err(|refusal| Refusal {
            place: 2,
            ..refusal
        });
        assert_eq!(outcome(told, &[7, 7, 7], 3), "-4 at 2 untouched");
    }

    #[test]
    fn counts_in_their_order() {
        let record = Record {
            words: 10,
            clean: 3,
            corrected_binary: 2,
            corrected_pairs: 5,
            ..Record::default()
        };
        assert_eq!(counts(&record), "counts 10 3 2 5");
    }
}
