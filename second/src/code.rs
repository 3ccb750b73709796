// The code by its published definitions: the transform, the frozen rules, and what keeps them and the
// check. Also the form of what any decoder finds out: the set of agreeing codewords, told by its ends.

use crate::check::{checked_sequence, remainder};
use crate::layout::Record;
use crate::sheet::Sheet;

/// A symbol that was not read.
pub const ERASED: u8 = 2;

/// Whether u_i is one of the bits whose XOR is x_j: every bit set in j is set in i.
pub fn takes_part(i: usize, j: usize) -> bool {
    i & j == j
}

/// x from u.
pub fn transform(u: &[bool]) -> Vec<bool> {
    (0..u.len())
        .map(|j| {
            (0..u.len())
                .filter(|&i| takes_part(i, j))
                .fold(false, |sum, i| sum ^ u[i])
        })
        .collect()
}

/// What the rule of a frozen record gives: the constant, flipped if an odd number of the
/// positions it names hold 1.
pub fn rule(record: &Record, u: &[bool]) -> bool {
    record.constant ^ (record.named.iter().filter(|&&j| u[j]).count() % 2 == 1)
}

/// The bits of u at the free positions, rising.
pub fn free_bits(sheet: &Sheet, u: &[bool]) -> Vec<bool> {
    sheet.free().into_iter().map(|i| u[i]).collect()
}

/// The u that keeps every frozen rule and holds these K bits at the free positions, rising.
pub fn filled(sheet: &Sheet, free_bits: &[bool]) -> Vec<bool> {
    let mut u = vec![false; sheet.length()];
    let mut next = free_bits.iter();
    for (i, record) in sheet.records.iter().enumerate() {
        u[i] = if record.frozen {
            rule(record, &u)
        } else {
            *next.next().expect("K bits")
        };
    }
    u
}

/// Whether u keeps every frozen rule and the check.
pub fn keeps(sheet: &Sheet, r: usize, u: &[bool]) -> bool {
    let rules = (sheet.records.iter().zip(u))
        .all(|(record, &bit)| !record.frozen || bit == rule(record, u));
    let sequence = checked_sequence(&free_bits(sheet, u), r);
    rules && remainder(&sequence, r).iter().all(|&bit| !bit)
}

/// Whether x equals the word at every symbol that is not erased.
pub fn agrees(x: &[bool], word: &[u8]) -> bool {
    (x.iter().zip(word)).all(|(&bit, &symbol)| symbol == ERASED || symbol == u8::from(bit))
}

/// The agreeing codewords, 2^d of them, where there is one.
#[derive(Clone, Debug, PartialEq, Eq)]
pub struct Agreeing {
    pub d: usize,
    /// The value where all agreeing codewords have it, else 2.
    pub settled: Vec<u8>,
    /// The u of the first of them, in the order of u.
    pub first: Vec<bool>,
    /// The u of the last.
    pub last: Vec<bool>,
}
