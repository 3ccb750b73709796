// What the lists of strips share: sound strips, marks, and the request to repair one.

use super::parts::{room, Code};
use crate::calls;
use crate::code::ERASED;
use crate::limits::{CARTRIDGE_BYTES, LARGEST_CEILING};
use crate::protocol::Request;
use crate::rng::Rng;
use crate::words::{put_garbage, Codewords};

/// A strip of a code: a codeword in each lane.
pub fn sound(rng: &mut Rng, code: &Code) -> Vec<u8> {
    Codewords::drawn(rng, code.n, &code.sheet, code.r, 12).strip(rng)
}

/// Marks at a chance of so many in eight.
pub fn marks(rng: &mut Rng, length: usize, losses: usize) -> Vec<u8> {
    (0..length)
        .map(|_| u8::from(rng.below(8) < losses))
        .collect()
}

/// The word that is lost at the marks.
pub fn marked_word(lost: &[u8]) -> Vec<u8> {
    lost.iter().map(|&mark| ERASED * mark).collect()
}

/// Puts a word into lane t.
pub fn put_lane(strip: &mut [u8], t: usize, word: &[u8]) {
    for (record, bit) in strip.chunks_mut(CARTRIDGE_BYTES).zip(word) {
        record[t / 8] &= !(1 << (t % 8));
        record[t / 8] |= bit << (t % 8);
    }
}

/// A request with any bytes in the lost records, its room exact and its ceiling the largest.
pub fn repair(rng: &mut Rng, code: &Code, mut strip: Vec<u8>, lost: Vec<u8>) -> Request {
    put_garbage(rng, &mut strip, &lost);
    Request {
        c: lost,
        ..code.request(
            7,
            LARGEST_CEILING,
            strip,
            calls::repaired_bytes(code.length()),
        )
    }
}

/// The same with a room that is exact or longer.
pub fn in_room(rng: &mut Rng, request: Request) -> Request {
    let o = room(rng, request.o);
    Request { o, ..request }
}

/// A sound strip with a few losses.
pub fn good(rng: &mut Rng, code: &Code) -> Request {
    let strip = sound(rng, code);
    let lost = marks(rng, code.length(), 2);
    repair(rng, code, strip, lost)
}
