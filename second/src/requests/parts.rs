// What the lists of requests share: check lengths, sheets drawn at random, and good codes with
// their words. A sheet of a long code takes ten thousand bytes and more, so that the lists keep of
// these what each rule needs.

use crate::answer::Answer;
use crate::calls;
use crate::layout::{Layout, Record, NEW, OLD};
use crate::limits::{LARGEST_CEILING, LARGEST_EXPONENT};
use crate::make::{
    any_codeword, bits, bytes, codeword, every_sheet, faults_at, frozen_at, frozen_faults_at, good,
    good_records, only_word, spoil, word_of, zeros_first, Misreading, Style, MISREADINGS, STYLES,
};
use crate::protocol::Request;
use crate::rng::Rng;
use crate::sheet::Sheet;

/// The codes of N = 2^n symbols are long from this n on.
pub const LONG: usize = 7;

/// The check lengths of the scope.
pub const CHECKS: [usize; 3] = [0, 6, 11];

/// Some that are not, among them ones whose low byte is.
pub const WRONG_CHECKS: [usize; 18] = [
    1, 2, 3, 4, 5, 7, 8, 9, 10, 12, 13, 17, 255, 256, 262, 267, 1536, 65535,
];

/// The check lengths of the scope, then those that are not.
pub fn any_checks() -> Vec<usize> {
    [&CHECKS[..], &WRONG_CHECKS].concat()
}

pub fn any_style(rng: &mut Rng) -> Style {
    rng.pick(&STYLES)
}

/// A sheet of N = 2^n records that keep every rule, with any K, 0 too.
pub fn any_sheet(rng: &mut Rng, n: usize) -> Vec<u8> {
    let k = rng.within(0, 1 << n);
    let style = any_style(rng);
    good(rng, 1 << n, k, style)
}

/// A sheet of N = 2^n records that keep every rule, with no free position.
pub fn none_free(rng: &mut Rng, n: usize) -> Vec<u8> {
    let style = any_style(rng);
    good(rng, 1 << n, 0, style)
}

/// A code of such a sheet, the word that keeps every rule of it, and one that does not.
pub fn none_free_words(rng: &mut Rng, n: usize) -> (Code, Vec<u8>, Vec<u8>) {
    let sheet = none_free(rng, n);
    let word = only_word(n, &sheet);
    let mut other = word.clone();
    other[rng.below(1 << n)] ^= 1;
    (Code { n, r: 0, sheet }, word, other)
}

/// Every such sheet of one and of two symbols, with its n.
pub fn every_none_free() -> Vec<(usize, Vec<u8>)> {
    [0, 1]
        .into_iter()
        .flat_map(|n| every_sheet(1 << n).into_iter().map(move |sheet| (n, sheet)))
        .filter(|(_, records)| records.iter().all(|record| record.frozen))
        .map(|(n, records)| (n, bytes(&records)))
        .collect()
}

/// An old sheet of N = 2^n records that keep every rule.
pub fn old_sheet(rng: &mut Rng, n: usize, k: usize) -> Vec<u8> {
    let style = any_style(rng);
    OLD.write(&good_records(rng, 1 << n, k, style))
}

/// Old sheets of every N, with no free position, one and any number, each with its n.
pub fn old_sheets(rng: &mut Rng) -> Vec<(usize, Vec<u8>)> {
    let mut list = Vec::new();
    for n in 0..=OLD.largest_exponent {
        for k in [0, 1, rng.within(1, 1 << n)] {
            list.push((n, old_sheet(rng, n, k)));
        }
    }
    list
}

/// Spoils record i by any fault it can have in this layout.
pub fn spoil_in(rng: &mut Rng, layout: Layout, sheet: &mut [u8], i: usize) {
    let faults = faults_at(layout, sheet.len() / layout.record_bytes(), i);
    let fault = rng.pick(&faults);
    spoil(rng, layout, sheet, i, fault);
}

/// Spoils record i by any fault it can have.
pub fn spoil_somehow(rng: &mut Rng, sheet: &mut [u8], i: usize) {
    spoil_in(rng, NEW, sheet, i);
}

/// Spoils the frozen record i by any fault that leaves it frozen.
pub fn spoil_frozen(rng: &mut Rng, sheet: &mut [u8], i: usize) {
    let faults = frozen_faults_at(NEW, sheet.len() / NEW.record_bytes(), i);
    let fault = rng.pick(&faults);
    spoil(rng, NEW, sheet, i, fault);
}

/// The n of most lists: of the long codes the shortest and the longest.
pub fn exponents() -> Vec<usize> {
    (0..=LONG).chain([LARGEST_EXPONENT]).collect()
}

/// These n with every check length that a good sheet of N = 2^n can have.
pub fn choices() -> Vec<(usize, usize)> {
    (exponents().into_iter())
        .flat_map(|n| CHECKS.map(|r| (n, r)))
        .filter(|&(n, r)| suited(n, r) == r)
        .collect()
}

/// The same, of codes of 32 symbols and more with one check length alone, drawn at random.
pub fn few_choices(rng: &mut Rng) -> Vec<(usize, usize)> {
    let drawn: Vec<usize> = (0..=LARGEST_EXPONENT).map(|_| rng.pick(&CHECKS)).collect();
    let mut list = choices();
    list.retain(|&(n, r)| n < 5 || r == drawn[n]);
    list
}

/// The check length where a good sheet of N = 2^n can have it, else 0.
pub fn suited(n: usize, r: usize) -> usize {
    if r < 1 << n {
        r
    } else {
        0
    }
}

/// The first, the middle and the last place, each once.
pub fn first_middle_last(length: usize) -> Vec<usize> {
    let mut places = vec![0, length / 2, length - 1];
    places.dedup();
    places
}

/// Every place of a short length; of a long one places at the edges of bytes and of words of 64 bits,
/// the first and the last.
pub fn telling_places(length: usize) -> Vec<usize> {
    if length < 1 << LONG {
        return (0..length).collect();
    }
    let mut places = vec![0, 7, 8, 63, 64, 65, 127, 128, 255, 256, 320, 384, 448];
    if length > 256 {
        // the edges of bytes are those of shorter ones
        places.drain(1..4);
    }
    places.retain(|&place| place + 1 < length);
    places.push(length - 1);
    places
}

/// The room a call needs, mostly exact, else longer.
pub fn room(rng: &mut Rng, needed: usize) -> usize {
    needed + rng.pick(&[0, 0, 0, 0, 1, 2, 5, 16])
}

/// A good sheet with a check length that suits it.
#[derive(Clone)]
pub struct Code {
    pub n: usize,
    pub r: usize,
    pub sheet: Vec<u8>,
}

impl Code {
    /// K free positions at random.
    pub fn new(rng: &mut Rng, n: usize, r: usize, k: usize, style: Style) -> Code {
        let sheet = good(rng, 1 << n, k, style);
        Code { n, r, sheet }
    }

    /// Any style and any K with at least one bit of payload.
    pub fn any(rng: &mut Rng, n: usize, r: usize) -> Code {
        let k = rng.within(r + 1, 1 << n);
        let style = any_style(rng);
        Code::new(rng, n, r, k, style)
    }

    /// The K free positions are those with the most ones in their number.
    pub fn weighted(rng: &mut Rng, n: usize, r: usize, k: usize) -> Code {
        let mut order: Vec<usize> = (0..1 << n).collect();
        order.sort_by_key(|i| i.count_ones());
        let style = any_style(rng);
        let records = frozen_at(rng, 1 << n, &order[..(1 << n) - k], style);
        let sheet = bytes(&records);
        Code { n, r, sheet }
    }

    /// Any K with at least one bit of payload; every frozen bit names all bits before it.
    pub fn dense(rng: &mut Rng, n: usize, r: usize) -> Code {
        let k = rng.within(r + 1, 1 << n);
        let mut records = vec![Record::default(); 1 << n];
        for &i in &rng.order(1 << n)[k..] {
            records[i] = Record {
                frozen: true,
                constant: rng.bit(),
                named: (0..i).collect(),
            };
        }
        let sheet = bytes(&records);
        Code { n, r, sheet }
    }

    /// The first K positions are free, and every frozen one names half of the bits before it.
    pub fn tied(rng: &mut Rng, n: usize, r: usize, k: usize) -> Code {
        let mut records = vec![Record::default(); k];
        for i in k..1 << n {
            records.push(Record {
                frozen: true,
                constant: rng.bit(),
                named: (0..i).filter(|_| rng.bit()).collect(),
            });
        }
        let sheet = bytes(&records);
        Code { n, r, sheet }
    }

    /// Every second position is frozen, or each of the others but the first, or the right half; each
    /// names one free position alone, the one before it or the one half of N before it, or all before
    /// it but that one.
    pub fn by_single_bits(n: usize) -> Vec<Code> {
        let mut list = Vec::new();
        for (distance, frozen) in [(1, 1), (1, 0), (1 << (n - 1), 1)] {
            for alone in [true, false] {
                let record = |i: usize| match i.checked_sub(distance) {
                    Some(named) if i / distance % 2 == frozen => Record {
                        frozen: true,
                        constant: false,
                        named: (0..i).filter(|&j| (j == named) == alone).collect(),
                    },
                    _ => Record::default(),
                };
                let sheet = bytes(&(0..1 << n).map(record).collect::<Vec<_>>());
                list.push(Code { n, r: 0, sheet });
            }
        }
        list
    }

    /// Every code of one and of two symbols, and some of four, without a check.
    pub fn small() -> Vec<Code> {
        [(0, 1), (1, 1), (2, 127)]
            .into_iter()
            .flat_map(|(n, step)| {
                let sheets = every_sheet(1 << n).into_iter();
                let good = sheets.filter(|records| records.iter().any(|record| !record.frozen));
                good.step_by(step).map(move |records| Code {
                    n,
                    r: 0,
                    sheet: bytes(&records),
                })
            })
            .collect()
    }

    /// The bench code of eight symbols: u_0 = u_1 = u_2 = 0 and u_4 = u_3.
    pub fn bench() -> Code {
        let mut records = vec![Record::default(); 8];
        for i in [0, 1, 2, 4] {
            records[i].frozen = true;
        }
        records[4].named.push(3);
        Code {
            n: 3,
            r: 0,
            sheet: bytes(&records),
        }
    }

    /// The same sheet with a check length of 0.
    pub fn without_check(&self) -> Code {
        Code {
            r: 0,
            ..self.clone()
        }
    }

    pub fn read(&self) -> Sheet {
        Sheet::read(self.n, &self.sheet, self.r).expect("a good code")
    }

    /// N.
    pub fn length(&self) -> usize {
        1 << self.n
    }

    /// The length of a payload, K - r.
    pub fn payload(&self) -> usize {
        self.read().k() - self.r
    }

    pub fn codeword(&self, rng: &mut Rng) -> Vec<u8> {
        any_codeword(rng, self.n, &self.sheet, self.r)
    }

    pub fn codeword_of(&self, payload: &[u8]) -> Vec<u8> {
        codeword(self.n, &self.sheet, self.r, payload)
    }

    /// A word of any payload that keeps every rule, and the check as it is misread.
    pub fn misread(&self, rng: &mut Rng, misreading: Misreading) -> Vec<u8> {
        let payload = bits(rng, self.payload());
        word_of(&self.read(), &misreading.free_bits(&payload, self.r))
    }

    /// What decoding answers under the largest ceiling.
    pub fn decoded(&self, word: &[u8]) -> Answer {
        let mut out = vec![0; 3 << self.n];
        calls::decode(self.n, &self.sheet, self.r, LARGEST_CEILING, word, &mut out)
    }

    pub fn request(&self, op: u16, ceiling: usize, b: Vec<u8>, o: usize) -> Request {
        Request {
            op,
            n: self.n as u16,
            r: self.r as u16,
            ceiling: ceiling as u16,
            a: self.sheet.clone(),
            b,
            c: Vec::new(),
            o,
        }
    }
}

/// Codes by which the ones in front of the free bits are seen: every N and check length above 0,
/// with any number of free positions and, up to 32 symbols, the fewest that r allows. No constant is
/// 1, so that the all-zero word keeps every rule.
pub fn checked_codes(rng: &mut Rng) -> Vec<Code> {
    let mut list = Vec::new();
    for (n, r) in choices().into_iter().filter(|&(_, r)| r > 0) {
        if n < 6 {
            list.push(Code::new(rng, n, r, r + 1, STYLES[0]));
        }
        let k = rng.within(r + 1, 1 << n);
        list.push(Code::new(rng, n, r, k, STYLES[2]));
    }
    list
}

/// Payloads that begin with zeros: all 0, 0 up to the last bit, and any such one.
pub fn zero_payloads(rng: &mut Rng, length: usize) -> Vec<Vec<u8>> {
    let mut last = vec![0; length];
    last[length - 1] = 1;
    let mut payloads = vec![vec![0; length], zeros_first(rng, length), last];
    payloads.dedup();
    payloads
}

/// Whole words of a code by which the ones are seen: all 0, the codewords of payloads that begin
/// with zeros, and a word for each misreading of the check.
pub fn telling_words(rng: &mut Rng, code: &Code) -> Vec<Vec<u8>> {
    let mut words = vec![vec![0; code.length()]];
    for payload in zero_payloads(rng, code.payload()) {
        words.push(code.codeword_of(&payload));
    }
    for misreading in MISREADINGS {
        words.push(code.misread(rng, misreading));
    }
    words
}

/// The same of a short code; of a long one the word of one misreading.
pub fn few_telling_words(rng: &mut Rng, code: &Code) -> Vec<Vec<u8>> {
    if code.n < LONG {
        return telling_words(rng, code);
    }
    let misreading = rng.pick(&MISREADINGS);
    vec![code.misread(rng, misreading)]
}

/// The symbols of a text such as 02200220.
pub fn symbols(text: &str) -> Vec<u8> {
    text.bytes().map(|digit| digit - b'0').collect()
}
