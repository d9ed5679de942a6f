//! Every opening of one code: a line with the number of s from 0 to 4,097 that are allowed,
//! and a digest. In it are what each opening gave, its refusal, s and lengths, and what the
//! layout's call gave for place 1 with a record that has the same t, r and s but was not
//! opened, its refusal and the element.

use crate::digest::Digest;
use second::{Code, Record, Refusal};

pub fn with_each_s(t: u32, r: u32) -> String {
    let (whole, recorded) = (Code::open(t, r, 0), Record::fresh(t, r, 0).code());
    let mut allowed = 0;
    let mut digest = Digest::new();
    for s in 0..=4_097 {
        let opened = shortened(&whole, s);
        allowed += u32::from(opened.is_ok());
        digest.take(match opened {
            Ok(code) => {
                let (n, k) = (code.length(), code.message_length());
                [0, code.s(), n as u32, k as u32]
            }
            // The closed record is all zeros, and has no lengths.
            Err(refusal) => [refusal.number, 0, 0, 0],
        });
        digest.take(match shortened(&recorded, s) {
            Ok(code) => [0, code.element_number(1).expect("a place")],
            Err(refusal) => [refusal.number, 0],
        });
    }
    format!("openings {t} {r} {allowed} {}\n", digest.value())
}

/// The opening or the record with s, where this is the one with s = 0. The array of the whole
/// code, which takes the most time, is so made only once.
fn shortened(whole: &Result<Code, Refusal>, s: u32) -> Result<Code, Refusal> {
    whole.as_ref().map_err(|refusal| *refusal)?.shortened(s)
}

#[cfg(test)]
mod tests {
    use super::*;

    #[test]
    fn as_if_opened_with_s() {
        for (t, r, s) in [(3, 2, 2), (3, 2, 3), (4, 0, 5), (5, 2, 1), (0, 0, 0)] {
            let told = |opened: Result<Code, Refusal>| {
                opened.map(|code| (code.s(), code.length(), code.element_number(1)))
            };
            let whole = Code::open(t, r, 0);
            assert_eq!(told(shortened(&whole, s)), told(Code::open(t, r, s)));
            let recorded = Record::fresh(t, r, 0).code();
            let due = Record::fresh(t, r, s).code();
            assert_eq!(told(shortened(&recorded, s)), told(due));
        }
    }
}
