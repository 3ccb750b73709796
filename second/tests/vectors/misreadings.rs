// The check told from its misreadings: by whole words in every call that takes or writes them, and by
// words that lost symbols, alone or in a stream.

use crate::common::u_of;
use crate::decode::{decoded, Decoded};
use crate::lists::{answered, checks, kept, LONG};
use second::answer::Answer;
use second::calls::{stream_numbers, ANSWER_BYTES};
use second::code::free_bits;
use second::dense;
use second::make::{codeword, word_of, Misreading, MISREADINGS};
use second::protocol::Request;
use second::sheet::Sheet;
use std::collections::{BTreeMap, BTreeSet};

/// n and r of a good request, and the words of it that are whole: handed in, or written by encode.
fn whole_words(request: &Request, answer: &Answer, out: &[u8]) -> (u16, u16, Vec<Vec<u8>>) {
    let [mut n, mut r] = [request.n, request.r];
    let mut words = Vec::new();
    match request.op {
        1 if answer.code == 0 => words.push(out[..1 << n].to_vec()),
        2 | 3 if answer.code <= 2 => words.push(request.b.clone()),
        4 if answer.code == 0 => {
            if let Ok(numbers) = stream_numbers(&request.a, &request.c) {
                [n, r] = [numbers.0 as u16, numbers.1 as u16];
                let records = out.chunks(ANSWER_BYTES).zip(request.b.chunks(1 << n));
                let answered = records.filter(|(record, _)| record[0] <= 2);
                words.extend(answered.map(|(_, word)| word.to_vec()));
            }
        }
        _ => {}
    }
    words.retain(|word| !word.contains(&2));
    (n, r, words)
}

#[test]
fn whole_words_tell_the_check_from_its_misreadings() {
    for op in 1..=4 {
        // how often, by n, r and misreading, the check is kept and not as it is misread, and how
        // often the other way round
        let mut told: BTreeMap<(u16, u16, Misreading), [usize; 2]> = BTreeMap::new();
        for (request, answer, out) in answered(op) {
            let (n, r, words) = whole_words(request, answer, out);
            for word in words {
                let sheet = Sheet::read(n.into(), &request.a, r.into()).unwrap();
                let (rules, check) = kept(&sheet, r.into(), &word);
                if r == 0 || !rules {
                    continue;
                }
                let bits = free_bits(&sheet, &u_of(&word));
                for misreading in MISREADINGS {
                    if misreading.keeps(&bits, r.into()) != check {
                        told.entry((n, r, misreading)).or_default()[usize::from(!check)] += 1;
                    }
                }
            }
        }
        for (n, r) in checks() {
            for misreading in MISREADINGS {
                let [right, wrong] = told.get(&(n, r, misreading)).copied().unwrap_or_default();
                // the longer words to decode are damaged
                let least = match (op, n) {
                    (2, LONG..) => 0,
                    (_, 6..) => 1,
                    _ => 4,
                };
                assert!(right >= least, "op {op}, n {n}, r {r}, {misreading:?}");
                // encode writes no word of a check misread; of long codes decode and read-back have
                // words of one misreading, a stream those of each
                let least = match (op, n) {
                    (1, _) | (2 | 3, LONG..) => 0,
                    (_, 6..) => 1,
                    _ => 2,
                };
                assert!(
                    wrong >= least,
                    "op {op}, n {n}, r {r}, {misreading:?}: {wrong}"
                );
                assert!(op > 1 || wrong == 0);
            }
            let any = |&m: &Misreading| told.get(&(n, r, m)).is_some_and(|told| told[1] > 0);
            assert!(
                MISREADINGS.iter().any(any) || op < 3,
                "op {op}, n {n}, r {r}"
            );
        }
    }
}

/// The code that decoding would give if the check were misread. The codewords are then the right
/// ones, each turned over where two of the same payload differ.
fn misread_code(decoded: &Decoded, misreading: Misreading) -> u16 {
    let &Decoded { n, r, sheet, .. } = decoded;
    let read = Sheet::read(n, sheet, r).unwrap();
    let payload = vec![0; read.k() - r];
    let right = codeword(n, sheet, r, &payload);
    let wrong = word_of(&read, &misreading.free_bits(&payload, r));
    let turned: Vec<u8> = (decoded.word.iter().zip(right.iter().zip(wrong)))
        .map(|(&symbol, (right, wrong))| {
            if symbol == 2 {
                2
            } else {
                symbol ^ right ^ wrong
            }
        })
        .collect();
    dense::agreeing(&read, r, &turned).map_or(2, |found| found.d.min(1) as u16)
}

#[test]
fn damaged_words_tell_the_check_from_its_misreadings() {
    // inconsistent with some symbols lost, and unique or ambiguous if the check were misread
    let mut told: BTreeMap<(u16, u16, Misreading), usize> = BTreeMap::new();
    let mut codes = BTreeSet::new();
    for decoded in decoded() {
        let (n, r) = (decoded.n as u16, decoded.r as u16);
        if decoded.numbers[0] == 2 && r > 0 && decoded.word.contains(&2) {
            for misreading in MISREADINGS {
                let count = told.entry((n, r, misreading)).or_default();
                // of long codes one is enough
                if n >= LONG && *count > 0 {
                    continue;
                }
                let code = misread_code(&decoded, misreading);
                if code < 2 {
                    *count += 1;
                    codes.insert((r, misreading, code));
                }
            }
        }
    }
    for (n, r) in checks() {
        for misreading in MISREADINGS {
            let count = told.get(&(n, r, misreading)).copied().unwrap_or(0);
            let least = if n < 6 { 2 } else { 1 };
            assert!(count >= least, "n {n}, r {r}, {misreading:?}: {count}");
        }
    }
    assert_eq!(codes.len(), 2 * MISREADINGS.len() * 2, "{codes:?}");
}
