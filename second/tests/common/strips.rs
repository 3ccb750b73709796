// What the tests of strips share: strips of drawn words, marks, and the call on a marked buffer.

use super::BEFORE;
use second::answer::Answer;
use second::calls;
use second::limits::{CARTRIDGE_BYTES, LANES};
use second::make::{any_codeword, bits};
use second::rng::Rng;

/// What repairing leaves of a buffer five bytes longer than needed, which stay.
pub fn repair(
    n: usize,
    sheet: &[u8],
    r: usize,
    ceiling: usize,
    strip: &[u8],
    lost: &[u8],
) -> (Answer, Vec<u8>) {
    let needed = (CARTRIDGE_BYTES + 1) << n;
    let mut out = vec![BEFORE; needed + 5];
    let answer = calls::repair(n, sheet, r, ceiling, strip, lost, &mut out);
    assert_eq!(out.split_off(needed), [BEFORE; 5]);
    if answer.code > 1 {
        assert!(out.iter().all(|&byte| byte == BEFORE), "untouched");
    }
    (answer, out)
}

/// Bit t mod 8 of byte t div 8 of a record.
pub fn lane_of(record: &[u8], t: usize) -> u8 {
    record[t / 8] >> (t % 8) & 1
}

/// A strip whose lane t is the t-th word.
pub fn strip_of(words: &[Vec<u8>]) -> Vec<u8> {
    let mut strip = vec![0; CARTRIDGE_BYTES * words[0].len()];
    for (t, word) in words.iter().enumerate() {
        for (record, bit) in strip.chunks_mut(CARTRIDGE_BYTES).zip(word) {
            record[t / 8] |= bit << (t % 8);
        }
    }
    strip
}

/// Marks at a chance of so many in eight.
pub fn marks(rng: &mut Rng, length: usize, losses: usize) -> Vec<u8> {
    (0..length)
        .map(|_| u8::from(rng.below(8) < losses))
        .collect()
}

/// A strip of codewords, at random or few that come again and again, and some lanes of any bits.
pub fn any_strip(rng: &mut Rng, n: usize, sheet: &[u8], r: usize, spoilt: usize) -> Vec<u8> {
    let different = if n > 6 { 20 } else { 100 };
    let drawn: Vec<Vec<u8>> = (0..different)
        .map(|_| any_codeword(rng, n, sheet, r))
        .collect();
    let mut words: Vec<Vec<u8>> = (0..LANES)
        .map(|_| drawn[rng.below(different)].clone())
        .collect();
    for _ in 0..spoilt {
        words[rng.below(LANES)] = bits(rng, 1 << n);
    }
    strip_of(&words)
}
