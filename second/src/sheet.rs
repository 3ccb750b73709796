// The code sheet: N records in today's layout, held to the rules of the sheet. The refusals are, in this
// order, 11 and 12, which are the layout's, 19 (K = 0) and 13 (check length, or K too small for it).

use crate::answer::Answer;
use crate::check::polynomial;
use crate::layout::{Record, NEW};

#[derive(Clone, Debug, PartialEq, Eq)]
pub struct Sheet {
    pub records: Vec<Record>,
}

impl Sheet {
    /// The sheet of N = 2^n records with its check length r, or the first refusal of 11, 12, 19, 13.
    pub fn read(n: usize, bytes: &[u8], r: usize) -> Result<Sheet, Answer> {
        let records = NEW.read(n, bytes)?;
        let sheet = Sheet { records };
        if sheet.k() == 0 {
            return Err(Answer::code(19));
        }
        if polynomial(r).is_none() || (r > 0 && sheet.k() <= r) {
            return Err(Answer::code(13));
        }
        Ok(sheet)
    }

    /// N.
    pub fn length(&self) -> usize {
        self.records.len()
    }

    /// The free positions, rising.
    pub fn free(&self) -> Vec<usize> {
        (0..self.length())
            .filter(|&i| !self.records[i].frozen)
            .collect()
    }

    /// K, the number of free positions.
    pub fn k(&self) -> usize {
        self.free().len()
    }
}
