// Damaged words of a sheet in any number, and whole strips. A codeword depends on its payload bit by
// bit: it is the codeword of no ones, changed by what each one of the payload changes alone.

use crate::answer::Answer;
use crate::calls;
use crate::code::ERASED;
use crate::limits::{CARTRIDGE_BYTES, LANES};
use crate::make::any_codeword;
use crate::rng::Rng;
use crate::sheet::Sheet;
use crate::system::unit;

/// The codewords of a sheet, ready to be drawn.
pub struct Codewords {
    none: Vec<u8>,
    /// For each payload bit, the symbols that it turns over.
    changes: Vec<Vec<u8>>,
}

impl Codewords {
    /// The codewords of a sheet with its check length, or the refusal.
    pub fn new(n: usize, sheet: &[u8], r: usize) -> Result<Codewords, Answer> {
        let bits = Sheet::read(n, sheet, r)?.k() - r;
        let codeword = |payload: Vec<bool>| {
            let payload: Vec<u8> = payload.into_iter().map(u8::from).collect();
            let mut word = vec![0; 1 << n];
            let answer = calls::encode(n, sheet, r, &payload, &mut word);
            assert_eq!(answer, Answer::code(0));
            word
        };
        let none = codeword(vec![false; bits]);
        let changes = (0..bits)
            .map(|bit| changed(codeword(unit(bits, bit)), &none))
            .collect();
        Ok(Codewords { none, changes })
    }

    /// Those that one drawn codeword and so many more give together: quicker to make, and enough for
    /// strips whose lanes differ.
    pub fn drawn(rng: &mut Rng, n: usize, sheet: &[u8], r: usize, more: usize) -> Codewords {
        let none = any_codeword(rng, n, sheet, r);
        let changes = (0..more)
            .map(|_| changed(any_codeword(rng, n, sheet, r), &none))
            .collect();
        Codewords { none, changes }
    }

    /// The length of a payload, K - r.
    pub fn bits(&self) -> usize {
        self.changes.len()
    }

    /// The codeword of a payload.
    pub fn of(&self, payload: &[u8]) -> Vec<u8> {
        (self.changes.iter().zip(payload))
            .filter(|(_, &bit)| bit == 1)
            .fold(self.none.clone(), |word, (change, _)| changed(word, change))
    }

    /// A codeword drawn at random, with losses, mostly of up to half, and now and then another
    /// flaw: a symbol that was read is turned over, or any symbol is made none of 0, 1 and 2.
    pub fn damaged(&self, rng: &mut Rng) -> Vec<u8> {
        let payload: Vec<u8> = (0..self.bits()).map(|_| rng.below(2) as u8).collect();
        let mut word = self.of(&payload);
        let order = rng.order(word.len());
        let most = if rng.below(4) == 0 {
            word.len()
        } else {
            word.len().div_ceil(2)
        };
        let lost = rng.within(0, most);
        for &j in &order[..lost] {
            word[j] = ERASED;
        }
        if let (0, Some(&j)) = (rng.below(8), order.get(lost)) {
            word[j] ^= 1;
        }
        if rng.below(64) == 0 {
            let j = rng.below(order.len());
            word[j] = rng.within(3, 255) as u8;
        }
        word
    }
}

impl Codewords {
    /// A strip with a codeword drawn at random in each lane.
    pub fn strip(&self, rng: &mut Rng) -> Vec<u8> {
        let mut strip: Vec<u8> = (self.none.iter())
            .flat_map(|&bit| [255 * bit; CARTRIDGE_BYTES])
            .collect();
        for change in &self.changes {
            // the lanes whose payload has this bit
            let lanes = any_bytes(rng, CARTRIDGE_BYTES);
            let records = strip.chunks_mut(CARTRIDGE_BYTES).zip(change);
            for (record, _) in records.filter(|(_, &bit)| bit == 1) {
                for (byte, lanes) in record.iter_mut().zip(&lanes) {
                    *byte ^= lanes;
                }
            }
        }
        strip
    }

    /// A strip with any bytes in the lost records; about one in eight has one bit turned over in a
    /// record that is not lost.
    pub fn damaged_strip(&self, rng: &mut Rng, lost: &[u8]) -> Vec<u8> {
        let mut strip = self.strip(rng);
        put_garbage(rng, &mut strip, lost);
        if rng.below(8) == 0 {
            let t = rng.below(LANES);
            turn_over(rng, &mut strip, lost, t);
        }
        strip
    }
}

/// Turns over one bit of a lane, in the record of any cartridge that is not lost.
pub fn turn_over(rng: &mut Rng, strip: &mut [u8], lost: &[u8], t: usize) {
    let read: Vec<usize> = (0..lost.len()).filter(|&j| lost[j] == 0).collect();
    if !read.is_empty() {
        strip[CARTRIDGE_BYTES * rng.pick(&read) + t / 8] ^= 1 << (t % 8);
    }
}

/// Bytes at random.
pub fn any_bytes(rng: &mut Rng, length: usize) -> Vec<u8> {
    (0..length).map(|_| rng.below(256) as u8).collect()
}

/// Puts any bytes into the records of the lost cartridges of a strip.
pub fn put_garbage(rng: &mut Rng, strip: &mut [u8], lost: &[u8]) {
    let records = strip.chunks_mut(CARTRIDGE_BYTES).zip(lost);
    for (record, _) in records.filter(|(_, &mark)| mark == 1) {
        let length = record.len();
        record.copy_from_slice(&any_bytes(rng, length));
    }
}

/// The word with the marked symbols turned over.
fn changed(mut word: Vec<u8>, change: &[u8]) -> Vec<u8> {
    for (symbol, bit) in word.iter_mut().zip(change) {
        *symbol ^= bit;
    }
    word
}
