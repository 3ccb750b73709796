// The refusals 11, 12, 19, 13, 14, 15 and 16 of a call: good requests with sets of these faults put
// in, so that their order is seen, and each fault alone at its border. Of the long codes fewer sets,
// and of each border what is next to it.

use super::parts::{
    any_checks, exponents, few_choices, first_middle_last, none_free, old_sheets, spoil_frozen,
    spoil_somehow, suited, Code, CHECKS, LONG, WRONG_CHECKS,
};
use crate::answer::{OF_CODEC, ORDER};
use crate::limits::{LARGEST_EXPONENT, RECORD_BYTES};
use crate::make::STYLES;
use crate::protocol::Request;
use crate::rng::Rng;
use std::ops::Range;

/// Makes a good request of a code: b is not empty and the room is exact.
pub type Maker = fn(&mut Rng, &Code) -> Request;

/// All lists, with the largest symbol of b; the seeds count from the first.
pub fn all(seed: u64, largest: u8, make: Maker) -> Vec<Request> {
    let rng = |list| Rng::new(seed + list);
    [
        some_sets(rng(0), 0..LONG, largest, make),
        sheet_lengths(rng(1), make),
        bad_records(rng(2), make),
        wrong_checks(rng(3), make),
        small_k(rng(4), make),
        lengths(rng(5), make),
        symbols(rng(6), largest, make),
        rooms(rng(7), make),
        no_free_position(rng(8), make),
        old_layout(rng(9), make),
    ]
    .concat()
}

/// The lists of what is wrong with the sheet or its check length alone.
pub fn of_sheet(seed: u64, make: Maker) -> Vec<Request> {
    let rng = |list| Rng::new(seed + list);
    [
        sheet_lengths(rng(0), make),
        bad_records(rng(1), make),
        wrong_checks(rng(2), make),
        small_k(rng(3), make),
        no_free_position(rng(4), make),
        old_layout(rng(5), make),
    ]
    .concat()
}

/// Sets of faults, each by the codes of their refusals. Of short codes every set of those of encoding
/// and read-back without 19, and 19 with up to two others; of 16 and 32 symbols no fault, each
/// alone, with each later one and with all later ones; of longer codes each with all later ones.
pub fn sets(n: usize) -> Vec<Vec<u16>> {
    if n >= 4 {
        return chains(n < 6);
    }
    let every = (0..1usize << OF_CODEC).map(|marks| -> Vec<u16> {
        let marked = ORDER.into_iter().enumerate();
        let marked = marked.filter(|(at, _)| marks >> at & 1 == 1);
        marked.map(|(_, code)| code).collect()
    });
    every
        .filter(|set| !set.contains(&19) || set.len() <= 3)
        .collect()
}

/// No fault, and each alone.
pub fn singles() -> Vec<Vec<u16>> {
    let alone = ORDER[..OF_CODEC].iter().map(|&code| vec![code]);
    [Vec::new()].into_iter().chain(alone).collect()
}

/// Each fault with all later ones; and no fault, each alone and with each later one.
pub fn chains(pairs: bool) -> Vec<Vec<u16>> {
    let codes = &ORDER[..OF_CODEC];
    let mut list: Vec<Vec<u16>> = (0..OF_CODEC).map(|at| codes[at..].to_vec()).collect();
    if pairs {
        list.extend(singles());
        for (at, &first) in codes.iter().enumerate() {
            list.extend(codes[at + 1..].iter().map(|&later| vec![first, later]));
        }
    }
    list
}

/// Puts the faults of a set into a good request. With 19 no payload and no room for it is right,
/// so a symbol of a payload takes 14 along, and read-back has no output that is too short.
pub fn put(rng: &mut Rng, mut request: Request, set: &[u16], largest: u8) -> Request {
    let has = |code: u16| set.contains(&code);
    if has(19) {
        free_nothing(rng, &mut request);
    }
    if has(16) {
        request.o = if has(13) {
            // too short for any check length
            request.o / 2
        } else if rng.bit() {
            request.o.max(1) - 1
        } else {
            rng.below(request.o.max(1))
        };
    }
    if has(15) {
        let length = request.b.len().max(1);
        request.b.resize(length, 0);
        for _ in 0..rng.within(1, 2) {
            let place = rng.below(length);
            request.b[place] = rng.pick(&[largest + 1, 255]);
        }
    }
    if has(14) {
        let right = request.b.len();
        // a bad symbol is not cut off
        let length = if right > 0 && !has(15) && rng.bit() {
            right - 1
        } else {
            right + 1
        };
        request.b.resize(length, 1);
    }
    put_in_sheet(rng, &mut request, set);
    request
}

/// Puts the faults 13, 12 and 11 of a set into a request.
pub fn put_in_sheet(rng: &mut Rng, request: &mut Request, set: &[u16]) {
    let has = |code: u16| set.contains(&code);
    if has(13) {
        request.r = wrong_check(rng, &request.a) as u16;
    }
    if has(12) {
        for _ in 0..rng.within(1, 2) {
            let i = rng.below(request.a.len() / RECORD_BYTES);
            if has(19) {
                spoil_frozen(rng, &mut request.a, i);
            } else {
                spoil_somehow(rng, &mut request.a, i);
            }
        }
    }
    if has(11) {
        wrong_length(rng, request);
    }
}

/// Another sheet of the same N, with no free position; K - r is 0 without a check.
pub fn free_nothing(rng: &mut Rng, request: &mut Request) {
    request.a = none_free(rng, request.n.into());
    request.r = 0;
    match request.op {
        1 => request.b.clear(),
        3 => request.o = 0,
        _ => {}
    }
}

/// A check length that is none, or is not below K.
fn wrong_check(rng: &mut Rng, sheet: &[u8]) -> usize {
    let k = (sheet.chunks(RECORD_BYTES))
        .filter(|record| record[0] == 0)
        .count();
    let large: Vec<usize> = [6, 11].into_iter().filter(|&r| k <= r).collect();
    if large.is_empty() || rng.bit() {
        rng.pick(&WRONG_CHECKS)
    } else {
        rng.pick(&large)
    }
}

/// A sheet one byte or one record off, or another n.
fn wrong_length(rng: &mut Rng, request: &mut Request) {
    let right = request.a.len();
    // from 16 symbols on the length is wrong
    let kinds = if request.n < 4 { 6 } else { 4 };
    match rng.below(kinds) {
        0 => request.a.truncate(right - 1),
        1 => request.a.push(0),
        2 => request.a.truncate(right - RECORD_BYTES),
        3 => request.a.resize(right + RECORD_BYTES, 0),
        4 => request.n += 1,
        _ => request.n += 256,
    }
}

/// A request for each of the sets of long codes.
pub fn long_sets(rng: Rng, largest: u8, make: Maker) -> Vec<Request> {
    some_sets(rng, LONG..LARGEST_EXPONENT + 1, largest, make)
}

/// A request for each of the sets.
fn some_sets(mut rng: Rng, exponents: Range<usize>, largest: u8, make: Maker) -> Vec<Request> {
    let mut list = Vec::new();
    for n in exponents {
        for set in sets(n) {
            let r = rng.pick(&CHECKS);
            let mut code = Code::any(&mut rng, n, suited(n, r));
            if n >= LONG {
                // so many that all lost are above each ceiling
                let k = rng.within(3 << (n - 2), 1 << n);
                code = Code::new(&mut rng, n, r, k, STYLES[3]);
            }
            let good = make(&mut rng, &code);
            list.push(put(&mut rng, good, &set, largest));
        }
    }
    list
}

/// Sheets too short and too long; n above the largest, and n one off. Of long codes the lengths next
/// to the right one, and an n with the low bits of the shortest of them.
fn sheet_lengths(mut rng: Rng, make: Maker) -> Vec<Request> {
    let mut list = Vec::new();
    for n in exponents() {
        let right = RECORD_BYTES << n;
        let code = Code::any(&mut rng, n, 0);
        let mut lengths = vec![right - 1, right + 1];
        let mut others = Vec::new();
        if n <= LONG {
            others.push(n + 64);
        }
        if n < LONG {
            lengths.extend([0, right - RECORD_BYTES, right + RECORD_BYTES]);
            others.extend([n + 1, n + 8, n + 256, n + 32768, 65535]);
        }
        for length in lengths {
            let mut request = make(&mut rng, &code);
            request.a.resize(length, 0);
            list.push(request);
        }
        for other in others {
            let mut request = make(&mut rng, &code);
            request.n = other as u16;
            list.push(request);
        }
    }
    list
}

/// One bad record: at every place of a short sheet, at a few places of a longer one, at the middle
/// or the last of a long one.
fn bad_records(mut rng: Rng, make: Maker) -> Vec<Request> {
    let mut list = Vec::new();
    for (n, r) in few_choices(&mut rng) {
        let places = match n {
            0..4 => (0..1 << n).collect(),
            4..LONG => first_middle_last(1 << n),
            _ => vec![rng.pick(&[1 << (n - 1), (1 << n) - 1])],
        };
        for i in places {
            let code = Code::any(&mut rng, n, r);
            let mut request = make(&mut rng, &code);
            spoil_somehow(&mut rng, &mut request.a, i);
            list.push(request);
        }
    }
    list
}

/// Check lengths that are not of the scope.
fn wrong_checks(mut rng: Rng, make: Maker) -> Vec<Request> {
    let mut list = Vec::new();
    for r in WRONG_CHECKS {
        for n in [0, 3, 5] {
            let code = Code::any(&mut rng, n, 0);
            let mut request = make(&mut rng, &code);
            request.r = r as u16;
            list.push(request);
        }
    }
    list
}

/// K = 1 without a check, which is enough; K = 1, r - 1 and r under one, as far as N allows it; of
/// long codes 11 under the longer check.
fn small_k(mut rng: Rng, make: Maker) -> Vec<Request> {
    let mut list = Vec::new();
    for n in exponents() {
        if n <= LONG {
            let code = Code::new(&mut rng, n, 0, 1, STYLES[3]);
            list.push(make(&mut rng, &code));
        }
        for (r, k) in [(6, 1), (6, 5), (6, 6), (11, 1), (11, 10), (11, 11)] {
            if k <= 1 << n && (n < LONG || k == 11) {
                let code = Code::new(&mut rng, n, 0, k, STYLES[3]);
                let mut request = make(&mut rng, &code);
                request.r = r as u16;
                list.push(request);
            }
        }
    }
    list
}

/// b one too short and one too long; of short codes also empty, two too long, r more and twice as
/// long.
fn lengths(mut rng: Rng, make: Maker) -> Vec<Request> {
    let mut list = Vec::new();
    for (n, r) in few_choices(&mut rng) {
        let code = Code::any(&mut rng, n, r);
        let good = make(&mut rng, &code);
        let right = good.b.len();
        let mut lengths = vec![right - 1, right + 1];
        if n < LONG {
            lengths.extend([0, right + 2, right + r, 2 * right]);
        }
        for length in lengths {
            let mut request = good.clone();
            request.b.resize(length, 1);
            list.push(request);
        }
    }
    list
}

/// Symbols above the largest, alone and before another; of long codes one at the last place.
fn symbols(mut rng: Rng, largest: u8, make: Maker) -> Vec<Request> {
    let mut list = Vec::new();
    for (n, r) in few_choices(&mut rng) {
        let code = Code::any(&mut rng, n, r);
        let length = make(&mut rng, &code).b.len();
        let (places, values) = match n {
            0..LONG => (first_middle_last(length), &[largest + 1, 255][..]),
            _ => (vec![length - 1], &[largest + 1][..]),
        };
        for place in places {
            for &value in values {
                let mut request = make(&mut rng, &code);
                request.b[place] = value;
                list.push(request);
            }
        }
        if n < LONG {
            let mut request = make(&mut rng, &code);
            request.b[length / 2..].fill(largest + 1);
            list.push(request);
        }
    }
    list
}

/// Outputs too short and too long by one; of short codes also exact, without a byte, and longer by
/// more.
fn rooms(mut rng: Rng, make: Maker) -> Vec<Request> {
    let mut list = Vec::new();
    for (n, r) in few_choices(&mut rng) {
        let code = Code::any(&mut rng, n, r);
        let exact = make(&mut rng, &code).o;
        let mut rooms = vec![exact - 1, exact + 1];
        if n < LONG {
            rooms.extend([0, exact, exact + 7, 2 * exact + 3]);
        }
        for o in rooms {
            let mut request = make(&mut rng, &code);
            request.o = o;
            list.push(request);
        }
    }
    list
}

/// No free position, under every check length: of the scope and not; and with a bad record. Of codes
/// of 64 symbols and more without a check.
fn no_free_position(mut rng: Rng, make: Maker) -> Vec<Request> {
    let mut list = Vec::new();
    for n in exponents() {
        let (checks, places) = match n {
            0..6 => (any_checks(), first_middle_last(1 << n)),
            _ => (vec![0], Vec::new()),
        };
        for r in checks {
            let code = Code::any(&mut rng, n, 0);
            let mut request = make(&mut rng, &code);
            free_nothing(&mut rng, &mut request);
            request.r = r as u16;
            list.push(request);
        }
        for i in places {
            let code = Code::any(&mut rng, n, 0);
            let mut request = make(&mut rng, &code);
            free_nothing(&mut rng, &mut request);
            spoil_frozen(&mut rng, &mut request.a, i);
            list.push(request);
        }
    }
    list
}

/// Sheets of 20-byte records, of every old N.
fn old_layout(mut rng: Rng, make: Maker) -> Vec<Request> {
    let mut list = Vec::new();
    for (n, sheet) in old_sheets(&mut rng) {
        let code = Code::any(&mut rng, n, 0);
        let mut request = make(&mut rng, &code);
        request.a = sheet;
        list.push(request);
    }
    list
}
