// Op 2, decode: the bench rows, the refusals with the ceiling at its edges, and the words. Ceilings are
// placed by the count g of the open free positions. Of long codes the words are those of each verdict
// at the borders of g, and a few of the other kinds.

use super::faults;
use super::losses::{self, decode, decode_in_room};
use super::parts::{choices, exponents, suited, symbols, Code, CHECKS, LONG};
use super::unknowns::{self, count, lost_to};
use crate::code::ERASED;
use crate::layout::Record;
use crate::limits::{LARGEST_CEILING, LARGEST_EXPONENT};
use crate::make::{bytes, damaged, STYLES};
use crate::protocol::Request;
use crate::rng::Rng;
use std::collections::BTreeSet;

pub fn all() -> Vec<Request> {
    [
        bench(),
        faults::all(200, 2, good),
        faults::long_sets(Rng::new(223), 2, all_lost),
        ceiling_sets(),
        ceilings(),
        unknowns_at_borders(),
        too_many_unknowns(),
        losses::all(),
    ]
    .concat()
}

/// A codeword with a few losses under the largest ceiling, its room exact.
fn good(rng: &mut Rng, code: &Code) -> Request {
    let word = code.codeword(rng);
    let word = damaged(rng, &word, 2);
    decode(code, word, LARGEST_CEILING, 3 * code.length())
}

/// All symbols lost under a ceiling above the largest, its room exact.
fn all_lost(rng: &mut Rng, code: &Code) -> Request {
    let ceiling = LARGEST_CEILING + rng.pick(&[1, 1, 2]);
    let word = vec![ERASED; code.length()];
    decode(code, word, ceiling, 3 * code.length())
}

/// The sheet that freezes these positions to these constants.
fn plain(n: usize, r: usize, frozen: &[(usize, bool)]) -> Code {
    let mut records = vec![Record::default(); 1 << n];
    for &(i, constant) in frozen {
        records[i].frozen = true;
        records[i].constant = constant;
    }
    let sheet = bytes(&records);
    Code { n, r, sheet }
}

/// The bench rows: E4 to E13, one and two symbols (the frozen one is refused), and the check of
/// length 6 with its refusal.
fn bench() -> Vec<Request> {
    let mut rows: Vec<(Code, &str, usize)> = [
        "01111000", "22221000", "01112222", "21111000", "11111000", "02200220", "02211220",
        "12200220", "22222222",
    ]
    .map(|word| (Code::bench(), word, 63))
    .to_vec();
    for ceiling in [3, 4] {
        rows.push((Code::bench(), "22222222", ceiling));
    }
    rows.push((plain(0, 0, &[]), "2", 63));
    for word in ["2", "0", "1"] {
        rows.push((plain(0, 0, &[(0, true)]), word, 63));
    }
    rows.push((plain(1, 0, &[]), "22", 63));
    rows.push((plain(3, 6, &[(0, false)]), "22222222", 63));
    rows.push((plain(3, 6, &[(0, false), (1, false)]), "22222222", 63));
    rows.into_iter()
        .map(|(code, word, ceiling)| decode(&code, symbols(word), ceiling, 3 * code.length()))
        .collect()
}

/// Sets of faults together with a ceiling below g (18) or above the largest (17): of short codes all
/// sets, and from 16 symbols on those of one fault or none. Of the longest both at once without a
/// fault, and 18 with 11, 12 and none. With 19 there is no g above a ceiling.
fn ceiling_sets() -> Vec<Request> {
    let mut rng = Rng::new(210);
    let mut list = Vec::new();
    for n in exponents() {
        let rounds = if n < 2 { 3 } else { 1 };
        let sets = match n {
            0..4 => faults::sets(n),
            4..=LONG => faults::singles(),
            _ => vec![Vec::new(), vec![11], vec![12]],
        };
        for set in (0..rounds).flat_map(|_| sets.clone()) {
            let r = rng.pick(&CHECKS);
            let code = match n {
                ..=LONG => Code::any(&mut rng, n, suited(n, r)),
                _ => Code::new(&mut rng, n, r, 1 << n, STYLES[0]),
            };
            let lost = vec![ERASED; 1 << n];
            let g = count(&code, &lost);
            // a bad symbol is one that is not lost
            let most = if set.contains(&15) { 1 } else { g };
            let ceiling = rng.below(most.min(LARGEST_CEILING + 1));
            let mut low = decode(&code, lost, ceiling, 3 << n);
            if !set.contains(&19) {
                list.push(faults::put(&mut rng, low.clone(), &set, 2));
            }
            if n <= LONG || set.is_empty() {
                let above = LARGEST_CEILING as u16 + 1;
                low.ceiling = rng.pick(&[above, above, above + 1, 511, 65535]);
                list.push(faults::put(&mut rng, low, &set, 2));
            }
        }
    }
    list
}

/// A word under the ceilings g - 1, g, g + 1, 0, the largest, one above it and 65535, each once.
fn at_its_ceilings(rng: &mut Rng, code: &Code, word: &[u8]) -> Vec<Request> {
    let g = count(code, word);
    let most = LARGEST_CEILING;
    let mut ceilings = vec![g.max(1) - 1, g, g + 1, 0, most, most + 1, 65535];
    ceilings.sort();
    ceilings.dedup();
    (ceilings.into_iter())
        .map(|ceiling| decode_in_room(rng, code, word.to_vec(), ceiling))
        .collect()
}

/// Codewords, and every other time words off the code, under ceilings about their g.
fn ceilings() -> Vec<Request> {
    let mut rng = Rng::new(211);
    let mut list = Vec::new();
    for (n, r) in choices().into_iter().filter(|&(n, _)| n < LONG) {
        for round in (0..6).step_by([1, 1, 1, 2, 3, 6, 6][n]) {
            let code = Code::any(&mut rng, n, r);
            let mut word = code.codeword(&mut rng);
            if round % 2 == 1 {
                word[rng.below(1 << n)] ^= 1;
            }
            let word = damaged(&mut rng, &word, round + 1);
            list.extend(at_its_ceilings(&mut rng, &code, &word));
        }
    }
    list
}

/// Words of each verdict at the borders of g, under the ceiling g or the largest; without unknowns
/// one also above the largest, and at each multiple of 64 and the largest ceiling one under g - 1. Next to a border every verdict, under every check length in the
/// shortest of the long codes and else under one; further off one verdict and check length.
fn unknowns_at_borders() -> Vec<Request> {
    let mut rng = Rng::new(212);
    let mut list = Vec::new();
    for n in LONG..=LARGEST_EXPONENT {
        for (turn, g) in unknowns::borders(n).into_iter().enumerate() {
            let near = [0, 63].contains(&(g % 64));
            let mut cases = unknowns::cases(n, g);
            if !near {
                let case = turn % cases.len();
                cases = vec![cases[case]];
            } else if n > LONG {
                cases.rotate_left(turn % 3);
                let mut seen = BTreeSet::new();
                cases.retain(|case| seen.insert(case.verdict));
            }
            for (at, case) in cases.into_iter().enumerate() {
                let (code, word) = unknowns::word(&mut rng, n, g, case, turn + list.len());
                let mut ceilings = vec![[g, LARGEST_CEILING][at % 2]];
                if at == 0 && g == 0 {
                    ceilings.push(LARGEST_CEILING + 1);
                } else if at == 0 && (g % 64 == 0 || g == LARGEST_CEILING) {
                    ceilings.push(g - 1);
                }
                for ceiling in ceilings {
                    list.push(decode_in_room(&mut rng, &code, word.clone(), ceiling));
                }
            }
        }
    }
    list
}

/// g above the largest ceiling, and so above each.
fn too_many_unknowns() -> Vec<Request> {
    let mut rng = Rng::new(221);
    let mut list = Vec::new();
    for n in LONG + 1..=LARGEST_EXPONENT {
        for g in unknowns::too_many(n) {
            let r = rng.pick(&CHECKS);
            let k = rng.within(g, 1 << n);
            let style = rng.pick(&STYLES);
            let code = Code::new(&mut rng, n, r, k, style);
            let word = code.codeword(&mut rng);
            let word = lost_to(&mut rng, &code, &word, g);
            list.push(decode_in_room(&mut rng, &code, word, LARGEST_CEILING));
        }
    }
    list
}
