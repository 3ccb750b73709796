// Op 1, encode: the refusals, and payloads for every N, check length and kind of sheet; masks in
// which one bit decides, every bit of the longest; the empty payload where no position is free or the check leaves none;
// payloads that begin with zeros.

use super::faults;
use super::parts::{
    checked_codes, choices, every_none_free, few_choices, first_middle_last, room, symbols,
    zero_payloads, Code, CHECKS, LONG,
};
use crate::layout::Record;
use crate::limits::LARGEST_EXPONENT;
use crate::make::{bits, bytes, every_word, STYLES};
use crate::protocol::Request;
use crate::rng::Rng;

pub fn all() -> Vec<Request> {
    [
        bench(),
        faults::all(100, 1, good),
        faults::long_sets(Rng::new(119), 1, good),
        every_style(),
        dense_masks(),
        single_names(),
        by_single_bits(),
        single_bits(),
        small_codes(),
        no_payload(),
        leading_zeros(),
    ]
    .concat()
}

/// A request of op 1; the ceiling is not looked at.
fn encode(rng: &mut Rng, code: &Code, payload: Vec<u8>, o: usize) -> Request {
    let ceiling = rng.pick(&[0, 0, 0, 63, 64, 65535]);
    code.request(1, ceiling, payload, o)
}

fn good(rng: &mut Rng, code: &Code) -> Request {
    let payload = bits(rng, code.payload());
    encode(rng, code, payload, code.length())
}

/// Encodes a payload with any room that is enough.
fn encode_in_room(rng: &mut Rng, code: &Code, payload: Vec<u8>) -> Request {
    let o = room(rng, code.length());
    encode(rng, code, payload, o)
}

/// The bench rows E1, E2 and E3.
fn bench() -> Vec<Request> {
    let mut rng = Rng::new(110);
    ["1000", "0110", "1011"]
        .map(|payload| encode(&mut rng, &Code::bench(), symbols(payload), 8))
        .to_vec()
}

/// Every style with any K and, of short codes, the smallest and the largest; long codes with every
/// check length, each of another style.
fn every_style() -> Vec<Request> {
    let mut rng = Rng::new(111);
    let mut list = Vec::new();
    let between = CHECKS.map(|r| (LONG + 1, r));
    for (n, r) in choices().into_iter().chain(between) {
        let styles = match n {
            0..LONG => &STYLES[..],
            _ => &STYLES[(n + r) % 4..][..1],
        };
        for &style in styles {
            for round in 0..[10, 10, 10, 8, 6, 3, 2].get(n).copied().unwrap_or(1) {
                let k = match round {
                    1 => r + 1,
                    2 => 1 << n,
                    _ => rng.within(r + 1, 1 << n),
                };
                let code = Code::new(&mut rng, n, r, k, style);
                let payload = bits(&mut rng, k - r);
                list.push(encode_in_room(&mut rng, &code, payload));
            }
        }
    }
    list
}

/// Every frozen bit names all bits before it; any payload and, of short codes, all 0 and all 1.
fn dense_masks() -> Vec<Request> {
    let mut rng = Rng::new(112);
    let mut list = Vec::new();
    for (n, r) in few_choices(&mut rng) {
        for round in if n < LONG { 0..3 } else { 2..3 } {
            let code = Code::dense(&mut rng, n, r);
            let payload = match round {
                0 => vec![0; code.payload()],
                1 => vec![1; code.payload()],
                _ => bits(&mut rng, code.payload()),
            };
            list.push(encode_in_room(&mut rng, &code, payload));
        }
    }
    list
}

/// Only the last of 16 bits is frozen, and names one bit or all before it but one, which is the
/// payload's only 1: every bit of a mask decides, both ways.
fn single_names() -> Vec<Request> {
    let mut rng = Rng::new(117);
    let mut list = Vec::new();
    let n = 4;
    let last = (1 << n) - 1;
    for j in 0..last {
        for named in [vec![j], (0..last).filter(|&i| i != j).collect()] {
            let mut records = vec![Record::default(); last];
            records.push(Record {
                frozen: true,
                constant: false,
                named,
            });
            let sheet = bytes(&records);
            let code = Code { n, r: 0, sheet };
            let mut payload = vec![0; last];
            payload[j] = 1;
            list.push(encode_in_room(&mut rng, &code, payload));
        }
    }
    list
}

/// Every free bit is 1: every bit of the longest mask decides, both ways.
fn by_single_bits() -> Vec<Request> {
    let mut rng = Rng::new(118);
    (Code::by_single_bits(LARGEST_EXPONENT).iter())
        .map(|code| encode_in_room(&mut rng, code, vec![1; code.payload()]))
        .collect()
}

/// Payloads with a single 1, at every place of a short one and at a few of a longer one.
fn single_bits() -> Vec<Request> {
    let mut rng = Rng::new(113);
    let mut list = Vec::new();
    for (n, r) in few_choices(&mut rng) {
        let code = Code::any(&mut rng, n, r);
        let length = code.payload();
        let places = match n {
            0..5 => (0..length).collect(),
            5..LONG => first_middle_last(length),
            _ => Vec::new(),
        };
        for place in places {
            let mut payload = vec![0; length];
            payload[place] = 1;
            list.push(encode_in_room(&mut rng, &code, payload));
        }
    }
    list
}

/// Every payload of the small codes.
fn small_codes() -> Vec<Request> {
    let mut rng = Rng::new(114);
    let mut list = Vec::new();
    for code in Code::small() {
        for payload in every_word(code.payload(), 2) {
            list.push(encode_in_room(&mut rng, &code, payload));
        }
    }
    list
}

/// No free position, and K = r of short codes under a check: refused, the empty payload too.
fn no_payload() -> Vec<Request> {
    let mut rng = Rng::new(115);
    let mut list = Vec::new();
    for (n, sheet) in every_none_free() {
        let code = Code { n, r: 0, sheet };
        list.push(encode_in_room(&mut rng, &code, Vec::new()));
        list.push(encode_in_room(&mut rng, &code, vec![0]));
    }
    for n in 0..LONG {
        for r in [6, 11].into_iter().filter(|&r| r <= 1 << n) {
            let mut code = Code::new(&mut rng, n, 0, r, STYLES[3]);
            code.r = r;
            list.push(encode_in_room(&mut rng, &code, Vec::new()));
        }
    }
    list
}

/// Payloads that begin with zeros, under a check; of long codes one each.
fn leading_zeros() -> Vec<Request> {
    let mut rng = Rng::new(116);
    let mut list = Vec::new();
    for code in checked_codes(&mut rng) {
        let mut payloads = zero_payloads(&mut rng, code.payload());
        if code.n >= LONG {
            payloads.rotate_left(code.n / 2 % 2);
            payloads.truncate(1);
        }
        for payload in payloads {
            list.push(encode_in_room(&mut rng, &code, payload));
        }
    }
    list
}
