//! How an answer's parts are printed: refusals, bytes and records.

use second::{Record, Refusal};

/// A refusal and the place told with it, or 0 and the place of an accepted call.
pub fn told(answer: Result<u32, Refusal>) -> String {
    let (number, place) = match answer {
        Ok(place) => (0, place),
        Err(refusal) => (refusal.number, refusal.place),
    };
    format!("refusal {number} place {place}")
}

/// A digit for each byte up to 9; the others as numbers between `<` and `>`.
pub fn bytes(bytes: &[u8]) -> String {
    let shown = |byte: &u8| match byte {
        0..=9 => byte.to_string(),
        _ => format!("<{byte}>"),
    };
    bytes.iter().map(shown).collect()
}

/// All seven fields.
pub fn record(record: &Record) -> String {
    let fields = [
        record.t,
        record.r,
        record.s,
        record.words,
        record.clean,
        record.corrected_binary,
        record.corrected_pairs,
    ];
    format!("({})", fields.map(|field| field.to_string()).join(","))
}

#[cfg(test)]
mod tests {
    use super::*;
    use crate::tests::RECORD;

    #[test]
    fn places_and_refusals() {
        assert_eq!(told(Ok(0)), "refusal 0 place 0");
        assert_eq!(told(Ok(4_095)), "refusal 0 place 4095");
        let refusal = Refusal {
            number: 4,
            place: 7,
        };
        assert_eq!(told(Err(refusal)), "refusal 4 place 7");
    }

    #[test]
    fn digits_and_other_bytes() {
        assert_eq!(bytes(&[]), "");
        assert_eq!(bytes(&[0, 0, 0, 1, 9, 10, 255, 2]), "00019<10><255>2");
    }

    #[test]
    fn the_fields_in_their_order() {
        assert_eq!(record(&RECORD), "(1,2,3,4,5,6,4294967295)");
        assert_eq!(record(&Record::default()), "(0,0,0,0,0,0,0)");
    }
}
