//! The record that calls are made with: t, r and s of a code, and the counts of the corrections
//! that were accepted with it, commits among them.

use crate::{Code, Refusal};

/// A caller may fill a record as they like, so each call judges the one that it is given. The
/// closed record, which a refused opening gives, has every field 0.
#[derive(Debug, Clone, Copy, Default, PartialEq, Eq)]
pub struct Record {
    pub t: u32,
    pub r: u32,
    pub s: u32,
    pub words: u32,
    pub clean: u32,
    pub corrected_binary: u32,
    pub corrected_pairs: u32,
}

impl Record {
    /// What an accepted opening gives: the r in force, and counts at 0.
    pub fn of(code: &Code) -> Record {
        Record::fresh(code.t(), code.r(), code.s())
    }

    /// Counts at 0, whether or not there is a code of t, r and s.
    pub fn fresh(t: u32, r: u32, s: u32) -> Record {
        Record {
            t,
            r,
            s,
            ..Record::default()
        }
    }

    /// The record's code, or why every call with it is refused: 21 where it is closed, 22 where
    /// it is unfit, and then 10.
    pub fn code(&self) -> Result<Code, Refusal> {
        if self.t == 0 {
            return Err(Refusal::of(21));
        }
        // Only opening has a default for r.
        if self.r == 0 || !self.adds_up() {
            return Err(Refusal::of(22));
        }
        Code::open(self.t, self.r, self.s).map_err(|refusal| match refusal.number {
            1 => Refusal::of(22),
            _ => refusal,
        })
    }

    /// Whether words is the sum of the other counts as whole numbers, which may be more than a
    /// count can hold.
    fn adds_up(&self) -> bool {
        let others = [self.clean, self.corrected_binary, self.corrected_pairs];
        others.into_iter().map(u64::from).sum::<u64>() == u64::from(self.words)
    }

    /// Correction, with the record counted on.
    pub fn correct(&self, word: &[u8], out: &mut [u8]) -> Result<(u32, Record), Refusal> {
        self.correct_in(&self.code()?, word, out)
    }

    /// The same with the record's code at hand. 23 comes after every other reason, so it is
    /// known only when a codeword is there, and the output still has to stay as it was.
    pub fn correct_in(
        &self,
        code: &Code,
        word: &[u8],
        out: &mut [u8],
    ) -> Result<(u32, Record), Refusal> {
        let mut written = out.to_vec();
        let place = code.correct(word, &mut written)?;
        let counted = self.counted(code, place)?;
        out.copy_from_slice(&written);
        Ok((place, counted))
    }

    /// Asking (request C-20): the place that a correction would tell. Its output is thrown away
    /// and nothing is counted, so a full record can be asked too.
    pub fn ask(&self, word: &[u8]) -> Result<u32, Refusal> {
        self.ask_in(&self.code()?, word)
    }

    /// The same with the record's code at hand.
    pub fn ask_in(&self, code: &Code, word: &[u8]) -> Result<u32, Refusal> {
        code.correct(word, &mut vec![0; code.length()])
    }

    /// Committing (request C-20): the given word becomes its codeword, and the record is counted
    /// on. Refused with 24, before 23, where the claimed place is not the one that changes.
    pub fn commit(&self, claimed: u32, word: &mut [u8]) -> Result<(u32, Record), Refusal> {
        self.commit_in(&self.code()?, claimed, word)
    }

    /// The same with the record's code at hand.
    pub fn commit_in(
        &self,
        code: &Code,
        claimed: u32,
        word: &mut [u8],
    ) -> Result<(u32, Record), Refusal> {
        let mut codeword = vec![0; code.length()];
        let place = code.correct(word, &mut codeword)?;
        if claimed != place {
            return Err(Refusal::of(24));
        }
        let counted = self.counted(code, place)?;
        word.copy_from_slice(&codeword);
        Ok((place, counted))
    }

    /// The record after one more correction, which told this place; refused with 23 where words
    /// is full. The other counts of a fit record are full only where words is.
    pub fn counted(&self, code: &Code, place: u32) -> Result<Record, Refusal> {
        let mut counted = *self;
        counted.words = self.words.checked_add(1).ok_or(Refusal::of(23))?;
        let count = match place {
            0 => &mut counted.clean,
            _ if code.is_binary(place) => &mut counted.corrected_binary,
            _ => &mut counted.corrected_pairs,
        };
        *count += 1;
        Ok(counted)
    }
}
