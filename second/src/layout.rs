// The records of a sheet and their layouts: today's, and the old one of 20-byte records that W-206 put
// out of use. A record is kind, constant, two zeros and the mask; the layouts differ in the length of
// the mask and in the largest N. Reading has the refusals 11 (length) and 12 (bad record).

use crate::answer::Answer;
use crate::limits::{LARGEST_EXPONENT, MASK_BYTES};

/// Record i: u_i is free, or frozen by its rule.
#[derive(Clone, Debug, Default, PartialEq, Eq)]
pub struct Record {
    pub frozen: bool,
    pub constant: bool,
    /// The positions the mask names, rising.
    pub named: Vec<usize>,
}

impl Record {
    /// Record i from its bytes, or nothing where it breaks a rule.
    fn read(i: usize, bytes: &[u8]) -> Option<Record> {
        let (head, mask) = bytes.split_at(4);
        let record = Record {
            frozen: head[0] == 1,
            constant: head[1] == 1,
            named: (0..8 * mask.len())
                .filter(|j| mask[j / 8] >> (j % 8) & 1 == 1)
                .collect(),
        };
        let form = head[0] <= 1 && head[1] <= 1 && head[2] == 0 && head[3] == 0;
        let rule = if record.frozen {
            record.named.iter().all(|&j| j < i)
        } else {
            !record.constant && record.named.is_empty()
        };
        (form && rule).then_some(record)
    }
}

#[derive(Clone, Copy, Debug, PartialEq, Eq)]
pub struct Layout {
    /// The largest n.
    pub largest_exponent: usize,
    /// Bytes of the mask; position j is bit j mod 8 of byte j div 8.
    pub mask_bytes: usize,
}

/// The layout that every call but the converter takes.
pub const NEW: Layout = Layout {
    largest_exponent: LARGEST_EXPONENT,
    mask_bytes: MASK_BYTES,
};

/// The layout that the converter takes. Its numbers do not move any more.
pub const OLD: Layout = Layout {
    largest_exponent: 7,
    mask_bytes: 16,
};

impl Layout {
    /// Bytes of a record.
    pub const fn record_bytes(&self) -> usize {
        4 + self.mask_bytes
    }

    /// The N = 2^n records of a sheet that keep every rule, K = 0 too, or the first refusal of 11, 12.
    pub fn read(&self, n: usize, bytes: &[u8]) -> Result<Vec<Record>, Answer> {
        let size = self.record_bytes();
        if n > self.largest_exponent || bytes.len() != size << n {
            return Err(Answer::code(11));
        }
        (bytes.chunks(size).enumerate())
            .map(|(i, record)| Record::read(i, record).ok_or(Answer::at(12, i)))
            .collect()
    }

    /// The bytes of a sheet.
    pub fn write(&self, records: &[Record]) -> Vec<u8> {
        let size = self.record_bytes();
        let mut sheet = vec![0; size * records.len()];
        for (i, record) in records.iter().enumerate() {
            sheet[size * i] = u8::from(record.frozen);
            sheet[size * i + 1] = u8::from(record.constant);
            for &j in &record.named {
                self.name(&mut sheet, i, j);
            }
        }
        sheet
    }

    /// Sets bit j of the mask of record i.
    pub fn name(&self, sheet: &mut [u8], i: usize, j: usize) {
        sheet[self.record_bytes() * i + 4 + j / 8] |= 1 << (j % 8);
    }
}
