// The words of op 2, decode: on and off the code, with losses from none to all, and such as tell the
// check from its misreadings. Of long codes a few of each kind.

use super::parts::{
    checked_codes, choices, every_none_free, exponents, few_choices, few_telling_words,
    first_middle_last, none_free_words, room, suited, Code, CHECKS, LONG,
};
use super::unknowns::{count, lost_at, lost_to};
use crate::code::ERASED;
use crate::limits::{LARGEST_CEILING, LARGEST_EXPONENT};
use crate::make::{bits, damaged, every_word, MISREADINGS, STYLES};
use crate::protocol::Request;
use crate::rng::Rng;

pub fn all() -> Vec<Request> {
    [
        full_codes(),
        small_codes(),
        no_free_position(),
        every_loss(),
        every_burst(),
        any_words(),
        each_verdict(),
        ones_in_front(),
        ambiguous_if_misread(),
        all_zero(),
        by_single_bits(),
    ]
    .concat()
}

pub fn decode(code: &Code, word: Vec<u8>, ceiling: usize, o: usize) -> Request {
    code.request(2, ceiling, word, o)
}

/// Decodes a word with any room that is enough.
pub fn decode_in_room(rng: &mut Rng, code: &Code, word: Vec<u8>, ceiling: usize) -> Request {
    let o = room(rng, 3 * code.length());
    decode(code, word, ceiling, o)
}

/// All positions free, and the fewest that r allows; all symbols lost, none, the left and the right
/// half; of long codes the left half of the one, and all of the other.
fn full_codes() -> Vec<Request> {
    let mut rng = Rng::new(217);
    let mut list = Vec::new();
    for (n, r) in few_choices(&mut rng) {
        let length = 1 << n;
        for k in [length, r + 1] {
            let code = Code::new(&mut rng, n, r, k, STYLES[3]);
            let mut losses = vec![0..length, 0..length / 2, 0..0, length / 2..length];
            if n >= LONG {
                losses.rotate_left(usize::from(k == length));
                losses.truncate(1);
            }
            for lost in losses {
                let word = code.codeword(&mut rng);
                let word = lost_at(&word, &lost.collect::<Vec<_>>());
                list.push(decode_in_room(&mut rng, &code, word, LARGEST_CEILING));
            }
        }
    }
    list
}

/// Every word of the small codes.
fn small_codes() -> Vec<Request> {
    let mut rng = Rng::new(213);
    let mut list = Vec::new();
    for code in Code::small() {
        for word in every_word(code.length(), 3) {
            list.push(decode_in_room(&mut rng, &code, word, LARGEST_CEILING));
        }
    }
    list
}

/// No free position: refused, whatever the word; every word of one and of two symbols, and for
/// every short N the word that keeps every rule, whole, damaged and all lost, and another.
fn no_free_position() -> Vec<Request> {
    let mut rng = Rng::new(218);
    let mut list = Vec::new();
    for (n, sheet) in every_none_free() {
        let code = Code { n, r: 0, sheet };
        for word in every_word(code.length(), 3) {
            list.push(decode_in_room(&mut rng, &code, word, LARGEST_CEILING));
        }
    }
    for n in 0..LONG {
        let (code, word, other) = none_free_words(&mut rng, n);
        for losses in [0, 4, 8] {
            let word = damaged(&mut rng, &word, losses);
            for ceiling in [0, LARGEST_CEILING] {
                list.push(decode_in_room(&mut rng, &code, word.clone(), ceiling));
            }
        }
        list.push(decode_in_room(&mut rng, &code, other, LARGEST_CEILING));
    }
    list
}

/// Every pattern of losses of eight symbols, on a codeword and, without a check, on a word that may be
/// none.
fn every_loss() -> Vec<Request> {
    let mut rng = Rng::new(214);
    let mut list = Vec::new();
    for r in [0, 6] {
        for lost in every_word(8, 2) {
            let code = Code::any(&mut rng, 3, r);
            let places: Vec<usize> = (0..8).filter(|&j| lost[j] == 1).collect();
            let both = [code.codeword(&mut rng), bits(&mut rng, 8)];
            for word in both.into_iter().take(if r == 0 { 2 } else { 1 }) {
                let word = lost_at(&word, &places);
                list.push(decode_in_room(&mut rng, &code, word, LARGEST_CEILING));
            }
        }
    }
    list
}

/// Codewords that lost a run of symbols: every run of eight, and without a check of sixteen symbols
/// from every second place on; runs from the first, the middle and the last place on of others, and
/// one of each long code.
fn every_burst() -> Vec<Request> {
    let mut rng = Rng::new(215);
    let mut list = Vec::new();
    for (n, r) in few_choices(&mut rng).into_iter().filter(|&(n, _)| n > 2) {
        let every = n == 3 || (n, r) == (4, 0);
        let starts = match n {
            _ if every => (0..1 << n).step_by(n - 2).collect(),
            0..LONG => first_middle_last(1 << n),
            _ => vec![1 << (n - 1)],
        };
        for start in starts {
            let longest = (1 << n) - start;
            let lengths = match n {
                _ if every => (1..=longest).collect(),
                0..LONG => first_middle_last(longest),
                _ => vec![longest - 1],
            };
            for length in lengths {
                let code = Code::any(&mut rng, n, r);
                let word = code.codeword(&mut rng);
                let run: Vec<usize> = (start..start + length).collect();
                let word = lost_at(&word, &run);
                list.push(decode_in_room(&mut rng, &code, word, LARGEST_CEILING));
            }
        }
    }
    list
}

/// A code at random, or one with the free positions of the most ones, one of dense masks, or one
/// with the fewest free positions that r allows.
fn any_code(rng: &mut Rng, n: usize, r: usize) -> Code {
    match rng.below(8) {
        0..=1 => {
            let k = rng.within(r + 1, 1 << n);
            Code::weighted(rng, n, r, k)
        }
        2 => Code::dense(rng, n, r),
        3 => Code::new(rng, n, r, r + 1, STYLES[3]),
        _ => Code::any(rng, n, r),
    }
}

/// A codeword, one with one or a few symbols flipped, one of the code without its check, or a
/// word at random.
fn any_word(rng: &mut Rng, code: &Code) -> Vec<u8> {
    let flips = match rng.below(9) {
        0..=3 => 0,
        4..=5 => 1,
        6 => rng.within(2, 4),
        7 => return code.without_check().codeword(rng),
        _ => return bits(rng, code.length()),
    };
    let mut word = code.codeword(rng);
    for _ in 0..flips {
        let place = rng.below(code.length());
        word[place] ^= 1;
    }
    word
}

/// The word with no loss, one, a run, any number by chance, as many as give a small g, or all.
fn any_losses(rng: &mut Rng, code: &Code, word: &[u8]) -> Vec<u8> {
    let length = word.len();
    let order = rng.order(length);
    match rng.below(16) {
        0 => word.to_vec(),
        1 => lost_at(word, &order[..1]),
        2..=3 => {
            let start = rng.below(length);
            let end = rng.within(start, length);
            lost_at(word, &(start..end).collect::<Vec<_>>())
        }
        4..=9 => {
            let losses = rng.within(1, 7);
            damaged(rng, word, losses)
        }
        10..=14 => {
            let g = rng.within(1, 12);
            lost_to(rng, code, word, g)
        }
        _ => vec![ERASED; length],
    }
}

/// Mostly the largest ceiling, else one about g or any.
fn any_ceiling(rng: &mut Rng, code: &Code, word: &[u8]) -> usize {
    let g = count(code, word);
    match rng.below(10) {
        0 => g.max(1) - 1,
        1 => g,
        2 => g + 1,
        3 => rng.within(0, LARGEST_CEILING),
        _ => LARGEST_CEILING,
    }
    .min(LARGEST_CEILING)
}

/// Words of every kind with losses of every kind.
fn any_words() -> Vec<Request> {
    let mut rng = Rng::new(216);
    let mut list = Vec::new();
    let counts = [30, 300, 300, 300, 300, 400, 400, 120, 20, 20];
    for (n, count) in counts.into_iter().enumerate() {
        for round in 0..count {
            let code = any_code(&mut rng, n, suited(n, CHECKS[round % 3]));
            let word = any_word(&mut rng, &code);
            let word = any_losses(&mut rng, &code, &word);
            let ceiling = any_ceiling(&mut rng, &code, &word);
            list.push(decode_in_room(&mut rng, &code, word, ceiling));
        }
    }
    list
}

/// Words of short codes of each verdict, about half of the positions free: codewords with losses, and
/// with a symbol turned over.
fn each_verdict() -> Vec<Request> {
    let mut rng = Rng::new(225);
    let mut list = Vec::new();
    for (n, r) in choices() {
        if !(1..LONG).contains(&n) {
            continue;
        }
        for verdict in [0, 1, 1, 2, 2] {
            let (code, word) = loop {
                let k = (r + 1).max(1 << (n - 1));
                let code = Code::new(&mut rng, n, r, k, STYLES[3]);
                let mut word = code.codeword(&mut rng);
                if verdict == 2 {
                    word[rng.below(1 << n)] ^= 1;
                }
                let losses = rng.within(1, 6);
                let word = damaged(&mut rng, &word, losses);
                if code.decoded(&word).code == verdict {
                    break (code, word);
                }
            };
            list.push(decode_in_room(&mut rng, &code, word, LARGEST_CEILING));
        }
    }
    list
}

/// Words by which the ones in front of the free bits are seen: with some losses, up to 32 symbols
/// also with few, and of short codes whole.
fn ones_in_front() -> Vec<Request> {
    let mut rng = Rng::new(219);
    let mut list = Vec::new();
    for code in checked_codes(&mut rng) {
        for word in few_telling_words(&mut rng, &code) {
            let losses = rng.within(1, 3);
            let mut words = vec![damaged(&mut rng, &word, losses)];
            if code.n < 6 {
                words.push(damaged(&mut rng, &word, 1));
            }
            if code.n < LONG {
                words.push(word);
            }
            for word in words {
                list.push(decode_in_room(&mut rng, &code, word, LARGEST_CEILING));
            }
        }
    }
    list
}

/// Words that keep the check as it is misread, with so many losses that they would be ambiguous, and
/// are inconsistent.
fn ambiguous_if_misread() -> Vec<Request> {
    let mut rng = Rng::new(224);
    let mut list = Vec::new();
    for r in [6, 11] {
        for misreading in MISREADINGS {
            let (code, word) = loop {
                let code = Code::any(&mut rng, 5, r);
                let losses = rng.within(1, 6);
                let right = code.codeword(&mut rng);
                let right = damaged(&mut rng, &right, losses);
                let misread = code.misread(&mut rng, misreading);
                let lost: Vec<usize> = (0..32).filter(|&j| right[j] == ERASED).collect();
                let misread = lost_at(&misread, &lost);
                if [&right, &misread].map(|word| code.decoded(word).code) == [1, 2] {
                    break (code, misread);
                }
            };
            list.push(decode_in_room(&mut rng, &code, word, LARGEST_CEILING));
        }
    }
    list
}

/// The all-zero word without a check, whole and with some losses; no constant is 1.
fn all_zero() -> Vec<Request> {
    let mut rng = Rng::new(220);
    let mut list = Vec::new();
    for n in exponents() {
        let k = rng.within(1, 1 << n);
        let code = Code::new(&mut rng, n, 0, k, STYLES[2]);
        let word = vec![0; 1 << n];
        for word in [damaged(&mut rng, &word, 2), word] {
            list.push(decode_in_room(&mut rng, &code, word, LARGEST_CEILING));
        }
    }
    list
}

/// Words whose free bits are 1, whole: every bit of the longest mask decides, both ways.
fn by_single_bits() -> Vec<Request> {
    let mut rng = Rng::new(222);
    (Code::by_single_bits(LARGEST_EXPONENT)[..4].iter())
        .map(|code| {
            let word = code.codeword_of(&vec![1; code.payload()]);
            decode_in_room(&mut rng, code, word, 0)
        })
        .collect()
}
