// Op 3, read_back: the refusals, whole codewords, and words that break a frozen rule, the check
// or both, some of them words that keep the check as it could be misread.

use super::faults;
use super::parts::{
    checked_codes, choices, every_none_free, few_choices, few_telling_words, first_middle_last,
    none_free_words, room, Code, CHECKS, LONG,
};
use crate::code::transform;
use crate::limits::LARGEST_EXPONENT;
use crate::make::{bits, every_word, STYLES};
use crate::protocol::Request;
use crate::rng::Rng;

pub fn all() -> Vec<Request> {
    [
        faults::all(300, 1, good),
        faults::long_sets(Rng::new(321), 1, good),
        whole(),
        flipped(),
        two_flipped(),
        rule_broken(),
        check_broken(),
        any_words(),
        plain_words(),
        small_codes(),
        no_payload(),
        ones_in_front(),
        by_single_bits(),
    ]
    .concat()
}

/// A request of op 3; the ceiling is not looked at.
fn read_back(rng: &mut Rng, code: &Code, word: Vec<u8>, o: usize) -> Request {
    let ceiling = rng.pick(&[0, 0, 0, 63, 64, 65535]);
    code.request(3, ceiling, word, o)
}

fn good(rng: &mut Rng, code: &Code) -> Request {
    let word = code.codeword(rng);
    read_back(rng, code, word, code.payload())
}

/// Reads a word back with any room that is enough.
fn read_in_room(rng: &mut Rng, code: &Code, word: Vec<u8>) -> Request {
    let o = room(rng, code.payload());
    read_back(rng, code, word, o)
}

/// How many rounds a list has for n: so many of short codes, fewer from 16 symbols on, and one of
/// long ones.
fn rounds(n: usize, most: usize) -> usize {
    match n {
        0..4 => most,
        4 => most.div_ceil(3),
        5..LONG => most.div_ceil(5),
        _ => 1,
    }
}

/// Codewords of every style, and of sheets with dense masks; of long codes any one.
fn whole() -> Vec<Request> {
    let mut rng = Rng::new(310);
    let mut list = Vec::new();
    let between = CHECKS.map(|r| (LONG + 1, r));
    for (n, r) in choices().into_iter().chain(between) {
        for round in 0..rounds(n, 20) {
            let k = rng.within(r + 1, 1 << n);
            let code = match STYLES.get((round + n + r) % 5) {
                Some(&style) => Code::new(&mut rng, n, r, k, style),
                None => Code::dense(&mut rng, n, r),
            };
            let word = code.codeword(&mut rng);
            list.push(read_in_room(&mut rng, &code, word));
        }
    }
    list
}

/// One symbol flipped: at every place of a short word, at any place of a longer one.
fn flipped() -> Vec<Request> {
    let mut rng = Rng::new(311);
    let mut list = Vec::new();
    for (n, r) in few_choices(&mut rng).into_iter().filter(|&(n, _)| n < LONG) {
        for count in 0..rounds(n, (2usize << n).min(32)) {
            let code = Code::any(&mut rng, n, r);
            let mut word = code.codeword(&mut rng);
            let place = if n > 4 {
                rng.below(1 << n)
            } else {
                count % (1 << n)
            };
            word[place] ^= 1;
            list.push(read_in_room(&mut rng, &code, word));
        }
    }
    list
}

/// Two symbols flipped.
fn two_flipped() -> Vec<Request> {
    let mut rng = Rng::new(312);
    let mut list = Vec::new();
    for (n, r) in few_choices(&mut rng)
        .into_iter()
        .filter(|&(n, _)| (1..LONG).contains(&n))
    {
        for _ in 0..rounds(n, 10) {
            let code = Code::any(&mut rng, n, r);
            let mut word = code.codeword(&mut rng);
            for &place in &rng.order(1 << n)[..2] {
                word[place] ^= 1;
            }
            list.push(read_in_room(&mut rng, &code, word));
        }
    }
    list
}

/// The word whose u differs from that of this word at one position alone.
fn with_other_bit(word: &[u8], position: usize) -> Vec<u8> {
    let symbols: Vec<bool> = word.iter().map(|&symbol| symbol == 1).collect();
    let mut u = transform(&symbols);
    u[position] ^= true;
    transform(&u).into_iter().map(u8::from).collect()
}

/// One frozen bit other than its rule, the free bits kept: the first, a middle and the last; of long
/// codes the last.
fn rule_broken() -> Vec<Request> {
    let mut rng = Rng::new(313);
    let mut list = Vec::new();
    for (n, r) in choices() {
        for _ in 0..rounds(n, 4) {
            let code = Code::any(&mut rng, n, r);
            let free = code.read().free();
            let frozen: Vec<usize> = (0..1 << n).filter(|i| !free.contains(i)).collect();
            let places = first_middle_last(frozen.len().max(1));
            let kept = if n < LONG { 0 } else { places.len() - 1 };
            for &at in &places[kept..] {
                if let Some(&position) = frozen.get(at) {
                    let word = with_other_bit(&code.codeword(&mut rng), position);
                    list.push(read_in_room(&mut rng, &code, word));
                }
            }
        }
    }
    list
}

/// Every rule kept and the check broken, of short codes: the code without its check gives the words.
fn check_broken() -> Vec<Request> {
    let mut rng = Rng::new(314);
    let mut list = Vec::new();
    for (n, r) in choices().into_iter().filter(|&(n, r)| r > 0 && n < LONG) {
        for _ in 0..rounds(n, 12) {
            let code = Code::any(&mut rng, n, r);
            let word = code.without_check().codeword(&mut rng);
            list.push(read_in_room(&mut rng, &code, word));
        }
    }
    list
}

/// Words drawn without the code, the longest under a check.
fn any_words() -> Vec<Request> {
    let mut rng = Rng::new(315);
    let mut list = Vec::new();
    for (n, r) in choices() {
        for _ in 0..if r == 0 && n > LONG { 0 } else { rounds(n, 8) } {
            let code = Code::any(&mut rng, n, r);
            let word = bits(&mut rng, 1 << n);
            list.push(read_in_room(&mut rng, &code, word));
        }
    }
    list
}

/// All 0 and all 1; from 64 symbols on with one style and without a check.
fn plain_words() -> Vec<Request> {
    let mut rng = Rng::new(316);
    let mut list = Vec::new();
    for (n, r) in choices() {
        let styles = match (n, r) {
            (0..6, _) => &STYLES[..],
            (..=LONG, 0) => &STYLES[2..3],
            _ => &[],
        };
        for &style in styles {
            let k = rng.within(r + 1, 1 << n);
            let code = Code::new(&mut rng, n, r, k, style);
            for symbol in [0, 1] {
                list.push(read_in_room(&mut rng, &code, vec![symbol; 1 << n]));
            }
        }
    }
    list
}

/// Every word of the small codes.
fn small_codes() -> Vec<Request> {
    let mut rng = Rng::new(317);
    let mut list = Vec::new();
    for code in Code::small() {
        for word in every_word(code.length(), 2) {
            list.push(read_in_room(&mut rng, &code, word));
        }
    }
    list
}

/// No free position: refused, whether or not the word keeps every rule; every word of one and of
/// two symbols, and for every short N the word that does and another.
fn no_payload() -> Vec<Request> {
    let mut rng = Rng::new(318);
    let mut list = Vec::new();
    for (n, sheet) in every_none_free() {
        let code = Code { n, r: 0, sheet };
        for word in every_word(code.length(), 2) {
            let o = room(&mut rng, 0);
            list.push(read_back(&mut rng, &code, word, o));
        }
    }
    for n in 0..LONG {
        let (code, word, other) = none_free_words(&mut rng, n);
        list.push(read_back(&mut rng, &code, word, 0));
        list.push(read_back(&mut rng, &code, other, 1));
    }
    list
}

/// Words by which the ones in front of the free bits are seen.
fn ones_in_front() -> Vec<Request> {
    let mut rng = Rng::new(319);
    let mut list = Vec::new();
    for code in checked_codes(&mut rng) {
        for word in few_telling_words(&mut rng, &code) {
            list.push(read_in_room(&mut rng, &code, word));
        }
    }
    list
}

/// Words whose free bits are 1: every bit of the longest mask decides, both ways.
fn by_single_bits() -> Vec<Request> {
    let mut rng = Rng::new(320);
    (Code::by_single_bits(LARGEST_EXPONENT)[..4].iter())
        .map(|code| {
            let word = code.codeword_of(&vec![1; code.payload()]);
            read_in_room(&mut rng, code, word)
        })
        .collect()
}
