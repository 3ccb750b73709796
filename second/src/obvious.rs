// The obvious program for whole strips, to measure by: parity checks on the symbols, made once for a
// sheet, and for each strip Gaussian elimination on the lost places, with whole records as
// right-hand sides. It takes what no call refuses, and has no ceiling.

use crate::answer::Answer;
use crate::code::takes_part;
use crate::dense::sheet_equations;
use crate::limits::{CARTRIDGE_BYTES, LANES};
use crate::sheet::Sheet;

/// A record of 64 bytes as words.
type Words = [u64; CARTRIDGE_BYTES / 8];

/// A set of places and the XOR of the symbols there; W words hold a bit for each place.
#[derive(Clone, Copy)]
struct Check<const W: usize> {
    places: [u64; W],
    value: Words,
}

impl<const W: usize> Check<W> {
    fn has(&self, j: usize) -> bool {
        self.places[j / 64] >> (j % 64) & 1 == 1
    }

    fn add(&mut self, other: &Check<W>) {
        xor(&mut self.places, &other.places);
        xor(&mut self.value, &other.value);
    }
}

fn xor<const L: usize>(to: &mut [u64; L], from: &[u64; L]) {
    for (to, from) in to.iter_mut().zip(from) {
        *to ^= from;
    }
}

fn load(record: &[u8]) -> Words {
    let mut words = [0; CARTRIDGE_BYTES / 8];
    for (word, bytes) in words.iter_mut().zip(record.chunks_exact(8)) {
        *word = u64::from_le_bytes(bytes.try_into().expect("eight bytes"));
    }
    words
}

fn store(words: &Words, record: &mut [u8]) {
    for (word, bytes) in words.iter().zip(record.chunks_exact_mut(8)) {
        bytes.copy_from_slice(&word.to_le_bytes());
    }
}

/// What came of a strip: the code, the first inconsistent lane with code 2, and d.
#[derive(Clone, Copy, Debug, PartialEq, Eq)]
pub struct Outcome {
    pub code: u16,
    pub place: usize,
    pub d: usize,
}

/// The checks of a sheet of N places, for which W words are just enough.
pub struct Obvious<const W: usize> {
    length: usize,
    checks: Vec<Check<W>>,
    /// The checks of the strip at hand.
    rows: Vec<Check<W>>,
    /// The records of the strip at hand.
    records: Vec<Words>,
}

impl<const W: usize> Obvious<W> {
    /// From a sheet of N = 2^n records with its check length, or the refusal.
    pub fn new(n: usize, sheet: &[u8], r: usize) -> Result<Obvious<W>, Answer> {
        let sheet = Sheet::read(n, sheet, r)?;
        let length = sheet.length();
        assert_eq!(W, length.div_ceil(64), "W words hold N bits");
        let checks: Vec<Check<W>> = (sheet_equations(&sheet, r).into_iter())
            .map(|(bits_of_u, value)| check(&bits_of_u, value))
            .collect();
        Ok(Obvious {
            length,
            rows: checks.clone(),
            checks,
            records: vec![[0; CARTRIDGE_BYTES / 8]; length],
        })
    }

    /// Repairs a strip: its 64N bytes and N marks go to the output's start, unless a lane is
    /// inconsistent.
    pub fn repair(&mut self, strip: &[u8], lost: &[u8], out: &mut [u8]) -> Outcome {
        for (words, record) in self.records.iter_mut().zip(strip.chunks(CARTRIDGE_BYTES)) {
            *words = load(record);
        }
        let missing: Vec<usize> = (0..self.length).filter(|&j| lost[j] == 1).collect();
        self.restrict(&missing);
        let rank = self.eliminate(&missing);
        if let Some(place) = self.first_contradicted(rank) {
            let code = 2;
            return Outcome { code, place, d: 0 };
        }
        self.fill(rank, strip, &missing, out);
        let d = missing.len() - rank;
        Outcome {
            code: if d == 0 { 0 } else { 1 },
            place: 0,
            d,
        }
    }

    /// The checks on the lost places alone: what was read goes to the right-hand side.
    fn restrict(&mut self, missing: &[usize]) {
        let mut lost = [0u64; W];
        for j in missing {
            lost[j / 64] |= 1 << (j % 64);
        }
        for (row, check) in self.rows.iter_mut().zip(&self.checks) {
            *row = *check;
            for (w, lost) in lost.iter().enumerate() {
                let mut read = row.places[w] & !lost;
                while read != 0 {
                    let j = 64 * w + read.trailing_zeros() as usize;
                    xor(&mut row.value, &self.records[j]);
                    read &= read - 1;
                }
                row.places[w] &= lost;
            }
        }
    }

    /// Gauss-Jordan: the first rows, as many as the rank, each own a lost place.
    fn eliminate(&mut self, missing: &[usize]) -> usize {
        let mut rank = 0;
        for &j in missing {
            let Some(at) = self.rows[rank..].iter().position(|row| row.has(j)) else {
                continue;
            };
            self.rows.swap(rank, rank + at);
            let pivot = self.rows[rank];
            for (at, row) in self.rows.iter_mut().enumerate() {
                if at != rank && row.has(j) {
                    row.add(&pivot);
                }
            }
            rank += 1;
        }
        rank
    }

    /// The first lane that a row without a lost place contradicts.
    fn first_contradicted(&self, rank: usize) -> Option<usize> {
        let mut all = [0; CARTRIDGE_BYTES / 8];
        for row in &self.rows[rank..] {
            for (all, word) in all.iter_mut().zip(&row.value) {
                *all |= word;
            }
        }
        (0..LANES).find(|t| all[t / 64] >> (t % 64) & 1 == 1)
    }

    /// Writes the strip with every lost record that a row gives alone; the others are zeros, marked.
    fn fill(&self, rank: usize, strip: &[u8], missing: &[usize], out: &mut [u8]) {
        let (records, marks) = out.split_at_mut(CARTRIDGE_BYTES * self.length);
        records.copy_from_slice(strip);
        marks[..self.length].fill(0);
        for &j in missing {
            records[CARTRIDGE_BYTES * j..][..CARTRIDGE_BYTES].fill(0);
            marks[j] = 1;
        }
        for row in &self.rows[..rank] {
            let count: u32 = row.places.iter().map(|word| word.count_ones()).sum();
            if count == 1 {
                let w = row.places.iter().position(|&word| word != 0);
                let w = w.expect("one place");
                let j = 64 * w + row.places[w].trailing_zeros() as usize;
                store(&row.value, &mut records[CARTRIDGE_BYTES * j..]);
                marks[j] = 0;
            }
        }
    }
}

/// A check on u as one on the symbols: the transform is its own inverse, so u_i is the XOR of the x_j
/// such that every bit set in i is set in j.
fn check<const W: usize>(bits_of_u: &[bool], value: bool) -> Check<W> {
    let mut check = Check {
        places: [0; W],
        value: [if value { u64::MAX } else { 0 }; CARTRIDGE_BYTES / 8],
    };
    for (i, _) in bits_of_u.iter().enumerate().filter(|(_, &bit)| bit) {
        for j in (0..bits_of_u.len()).filter(|&j| takes_part(j, i)) {
            check.places[j / 64] ^= 1 << (j % 64);
        }
    }
    check
}
