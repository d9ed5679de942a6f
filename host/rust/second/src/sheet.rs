//! What the sheet program prints (document 01, "The sheet program").

use crate::{Code, Refusal};

/// The whole output for all that standard input has.
pub fn text(input: &[u8]) -> String {
    match asked(input) {
        Ok(code) => listing(&code),
        Err(refusal) => format!("refused {}\n", refusal.number),
    }
}

fn asked(input: &[u8]) -> Result<Code, Refusal> {
    let (t, r) = parameters(input).ok_or(Refusal::of(7))?;
    Code::or_hamming(t, r)
}

/// None where the input is not of its form. A newline or space too many stays in a number or leaves
/// one empty, and it is no number then.
fn parameters(input: &[u8]) -> Option<(u32, u32)> {
    let line = input.strip_suffix(b"\n")?;
    let mut numbers = line.splitn(2, |&byte| byte == b' ').map(number);
    Some((numbers.next()??, numbers.next()??))
}

fn number(digits: &[u8]) -> Option<u32> {
    // `parse` would take a sign, and more digits.
    if digits.len() > 4 || !digits.iter().all(u8::is_ascii_digit) {
        return None;
    }
    std::str::from_utf8(digits).ok()?.parse().ok()
}

fn listing(code: &Code) -> String {
    let (t, r, n, k) = (code.t(), code.r(), code.length(), code.message_length());
    let line = |place| {
        let element = code.element_number(place).expect("a place");
        format!("{place} {element}\n")
    };
    let lines: String = (1..=n as u32).map(line).collect();
    format!("code {t} {r} {n} {k}\n{lines}")
}

#[cfg(test)]
mod tests {
    use super::*;

    /// As document 01 prints it.
    const SHEET_3_2: &str = "code 3 2 7 4\n1 4\n2 5\n3 7\n4 3\n5 1\n6 6\n7 2\n";

    /// Each of the inputs, a bar between two, prints this.
    fn all_print(inputs: &[u8], expected: &str) {
        for input in inputs.split(|&byte| byte == b'|') {
            assert_eq!(text(input), expected, "{}", input.escape_ascii());
        }
    }

    #[test]
    fn sheets() {
        assert_eq!(text(b"3 2\n"), SHEET_3_2);
        assert_eq!(text(b"2 1\n"), "code 2 1 3 1\n1 2\n2 3\n3 1\n");
        assert_eq!(text(b"2 2\n"), "code 2 2 3 1\n1 3\n2 1\n3 2\n");
        let sheet = text(b"4 2\n");
        assert!(sheet.starts_with("code 4 2 15 11\n1 2\n2 8\n3 10\n4 15\n5 5\n6 14\n"));
        assert!(sheet.ends_with("\n11 13\n12 3\n13 1\n14 12\n15 4\n"));
    }

    /// The last place has the last unit element.
    #[test]
    fn the_longest_sheets() {
        for (t, r, last, bytes) in [
            (10, 10, 512, 8_037),
            (11, 6, 512, 18_276),
            (11, 11, 1_024, 18_277),
            (12, 6, 1_024, 38_756),
            (12, 12, 2_048, 38_757),
        ] {
            let text = text(format!("{t} {r}\n").as_bytes());
            let lines: Vec<&str> = text.lines().collect();
            let n = (1 << t) - 1;
            assert_eq!((lines.len(), text.len()), (n + 1, bytes));
            assert_eq!(lines[0], format!("code {t} {r} {n} {}", n - t));
            assert_eq!(lines[n], format!("{n} {last}"));
        }
    }

    #[test]
    fn r_given_as_0_is_t() {
        for t in 0..=14 {
            let [zero, twice] = [format!("{t} 0\n"), format!("{t} {t}\n")];
            assert_eq!(text(zero.as_bytes()), text(twice.as_bytes()), "{t}");
        }
        assert!(text(b"4 0\n").starts_with("code 4 4 15 11\n1 3\n2 5\n"));
    }

    #[test]
    fn leading_zeros() {
        all_print(b"03 2\n|3 02\n|003 0002\n|0003 0002\n", SHEET_3_2);
        assert_eq!(text(b"02 0000\n"), text(b"2 2\n"));
    }

    #[test]
    fn parameters_not_admitted() {
        all_print(b"0 0\n|1 1\n|5 2\n|4 5\n|0 3\n", "refused 1\n");
        all_print(b"11 5\n|12 5\n|12 13\n|13 7\n", "refused 1\n");
        all_print(b"13 13\n|13 0\n|259 258\n|9999 9999\n", "refused 1\n");
    }

    #[test]
    fn numbers_not_of_their_form() {
        all_print(b"00003 2\n|3 00002\n|10000 2\n|65539 2\n", "refused 7\n");
        all_print(b" 2\n|3 \n| \n|3\n|3|\n|", "refused 7\n");
        all_print(b"+3 2\n|3 +2\n|-3 2\n|3 -2\n|-0 2\n", "refused 7\n");
        all_print(b"a 2\n|3 x\n|3. 2\n|0x3 2\n|3/ 2\n|3 2:\n", "refused 7\n");
        all_print(b"3 \xb2\n|\xff 2\n|\x003 2\n|3 2\x00\n", "refused 7\n");
        all_print("３ 2\n|3 ٢\n".as_bytes(), "refused 7\n");
    }

    #[test]
    fn spaces_not_of_their_form() {
        all_print(b" 3 2\n|3  2\n|3 2 \n|3 2 0\n|32\n", "refused 7\n");
        all_print(b"3\t2\n|3,2\n|3\x002\n|3\n2\n|3\xa02\n", "refused 7\n");
    }

    #[test]
    fn ends_not_of_their_form() {
        all_print(b"3 2|3 2\r\n|3 2\r|3 2\n\r|3 2\x00", "refused 7\n");
        all_print(b"3 2\nx|3 2\n\n|3 2\n |3 2\n\x00", "refused 7\n");
        all_print(b"3 2\n3 2\n|\n3 2\n|0003 0002\n\n", "refused 7\n");
    }
}
