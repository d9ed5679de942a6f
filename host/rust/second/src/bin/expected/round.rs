//! One round of calls on one code. The order of the draws is part of what is compared: the
//! program `larger` makes the same draws in the same order. Where s is 0 it makes the calls
//! for C, which tell no place in a refusal and have no counts.

use crate::lines::{counts, hexadecimal, outcome, FILL};
use second::draw::Draw;
use second::{signed, Code, Record, Refusal};

pub struct Round<'a> {
    code: &'a Code,
    draw: &'a mut Draw,
    n: usize,
    k: usize,
    text: String,
}

impl Round<'_> {
    /// The lines of one round.
    pub fn run(code: &Code, draw: &mut Draw) -> String {
        let (n, k) = (code.length(), code.message_length());
        let mut round = Round {
            code,
            draw,
            n,
            k,
            text: String::new(),
        };
        let message = round.draw.word(k);
        let codeword = round.encode(&message, n + 2)[..n].to_vec();
        round.corrections(&codeword);
        let word = round.draw.word(n);
        round.calls_on_words(&codeword, &word);
        round.bad_bytes(&codeword, &word);
        round.bad_lengths(&codeword);
        round.short_outputs(&message, &codeword, &word);
        round.bad_messages(&message);
        round.places();
        round.text
    }

    /// The codeword as it is, with one place flipped, and with two draws of a place flipped.
    fn corrections(&mut self, codeword: &[u8]) {
        self.correct(codeword, self.n + 2);
        let i = self.draw.below(self.n);
        let once = with(codeword, i, 1 - codeword[i]);
        self.correct(&once, self.n + 2);
        let j = self.draw.below(self.n);
        let twice = with(&once, j, 1 - once[j]);
        self.correct(&twice, self.n + 2);
    }

    fn calls_on_words(&mut self, codeword: &[u8], word: &[u8]) {
        self.syndrome(word);
        self.correct(word, self.n + 2);
        self.combine(codeword, word, self.n + 2);
        self.combine(word, word, self.n + 2);
        self.inverse(word);
        self.read(codeword);
        self.read(word);
    }

    /// One byte above 1, then perhaps another, for the lowest such place to be told.
    fn bad_bytes(&mut self, codeword: &[u8], word: &[u8]) {
        let p = self.draw.below(self.n);
        let v = 2 + self.draw.below(254) as u8;
        let bad = with(word, p, v);
        self.correct(&bad, self.n + 2);
        self.combine(codeword, &bad, self.n + 2);
        self.combine(&bad, codeword, self.n + 2);
        self.syndrome(&bad);
        let q = self.draw.below(self.n);
        let worse = with(&bad, q, 2);
        self.correct(&worse, self.n + 2);
        self.syndrome(&worse);
    }

    fn bad_lengths(&mut self, codeword: &[u8]) {
        let l = self.draw.below(self.n);
        self.correct(&codeword[..l], self.n + 2);
        let mut long = codeword.to_vec();
        long.resize(self.n + 1 + self.draw.below(3), 0);
        self.correct(&long, self.n + 2);
    }

    fn short_outputs(&mut self, message: &[u8], codeword: &[u8], word: &[u8]) {
        let l = self.draw.below(self.n);
        self.correct(codeword, l);
        self.encode(message, l);
        self.combine(codeword, word, l);
    }

    fn bad_messages(&mut self, message: &[u8]) {
        self.encode(&message[..self.k - 1], self.n + 2);
        let p = self.draw.below(self.k);
        self.encode(&with(message, p, 9), self.n + 2);
    }

    /// Third places and elements, places 0 and n + 1 among those drawn.
    fn places(&mut self) {
        let mut i = 0;
        for _ in 0..3 {
            i = self.draw.below(self.n + 2) as u32;
            let j = self.draw.below(self.n + 2) as u32;
            self.third(i, j);
        }
        self.third(i, i);
        let e = self.draw.below(self.n + 2) as u32;
        let (number, element) = match self.code.element_number(e) {
            Ok(element) => (0, element),
            Err(refusal) => (refusal.number, 0),
        };
        self.line(format!("element {number} {element}"));
    }

    fn line(&mut self, line: String) {
        self.text += &line;
        self.text.push('\n');
    }

    /// Makes a call into a fresh output of `room` bytes and shows it; gives the output.
    fn call<F>(&mut self, name: &str, room: usize, call: F) -> Vec<u8>
    where
        F: FnOnce(&Code, &mut [u8]) -> Result<u32, Refusal>,
    {
        let mut output = vec![FILL; room];
        let mut answer = call(self.code, &mut output);
        if self.code.s() == 0 {
            answer = answer.map_err(|refusal| Refusal {
                place: 0,
                ..refusal
            });
        }
        let counted = match (name, answer) {
            ("correct", Ok(place)) => self.counted(place),
            _ => String::new(),
        };
        let shown = outcome(answer, &output, self.n);
        self.line(format!("{name} {shown}{counted}"));
        output
    }

    /// The counts of a record after one correction.
    fn counted(&self, place: u32) -> String {
        if self.code.s() == 0 {
            return String::new();
        }
        let record = Record::of(self.code).counted(self.code, place);
        format!(" {}", counts(&record.expect("not full")))
    }

    fn encode(&mut self, message: &[u8], room: usize) -> Vec<u8> {
        self.call("encode", room, |code, out| {
            code.encode(message, out).map(|()| 0)
        })
    }

    fn correct(&mut self, word: &[u8], room: usize) {
        self.call("correct", room, |code, out| code.correct(word, out));
    }

    fn combine(&mut self, first: &[u8], second: &[u8], room: usize) {
        self.call("combine", room, |code, out| {
            code.combine(first, second, out).map(|()| 0)
        });
    }

    fn inverse(&mut self, word: &[u8]) {
        self.call("inverse", self.n + 2, |code, out| {
            code.invert(word, out).map(|()| 0)
        });
    }

    fn syndrome(&mut self, word: &[u8]) {
        let (number, place, element) = match self.code.syndrome(word) {
            Ok(element) => (0, 0, element),
            Err(refusal) => (refusal.number, refusal.place, 0),
        };
        self.line(format!("syndrome {number} {place} {element}"));
    }

    fn read(&mut self, word: &[u8]) {
        let shown = self.code.read_message(word);
        self.line(match shown.len() {
            0 => "read 0".to_string(),
            l => format!("read {l} {}", hexadecimal(shown)),
        });
    }

    fn third(&mut self, i: u32, j: u32) {
        let answer = self.code.third_place(i, j);
        self.line(format!("third {}", signed(answer)));
    }
}

/// The word with one byte, counted from 0, set to a value.
fn with(word: &[u8], index: usize, value: u8) -> Vec<u8> {
    let mut changed = word.to_vec();
    changed[index] = value;
    changed
}
