// What the refusals of the calls must be reached by: each alone and before every later one, symbols,
// lengths and rooms one off, and sheets with no free position.

use crate::lists::{
    all_frozen, answered, broken, exponents, kind_of_place, kinds_of, length_of, LONG, MOST,
};
use second::answer::{Answer, OF_CODEC, OF_SHEET, ORDER};
use second::limits::{LARGEST_CEILING, RECORD_BYTES};
use second::open;
use second::protocol::Request;
use second::sheet::Sheet;
use std::collections::BTreeSet;

/// g, an unread or bad symbol counted as read, and so an unread or bad mark of a strip.
fn unknowns(request: &Request) -> usize {
    let mut word = match request.op {
        7 => request
            .c
            .iter()
            .map(|&m| if m == 1 { 2 } else { 0 })
            .collect(),
        _ => request.b.clone(),
    };
    word.resize(length_of(request), 0);
    let open = open::open_positions(&word);
    let kinds = kinds_of(request);
    (open.iter().zip(kinds))
        .filter(|(&open, kind)| open && *kind == 0)
        .count()
}

/// The refusals of a call that apply, in their order, each looked at alone. Under a wrong check
/// length, payload and room count as right if they are so for any other.
fn applying(request: &Request) -> Vec<u16> {
    let length = length_of(request);
    let k = kinds_of(request).iter().filter(|&&kind| kind == 0).count();
    let suits = |r: usize| r == 0 || ([6, 11].contains(&r) && k > r);
    let r = usize::from(request.r);
    let payloads: Vec<usize> = if suits(r) {
        vec![k - r]
    } else {
        let others = [0, 6, 11].into_iter().filter(|&r| suits(r));
        others.map(|r| k - r).collect()
    };
    let (lengths, rooms, symbols, largest) = match request.op {
        1 => (payloads, vec![length], &request.b, 1),
        2 => (vec![length], vec![3 * length], &request.b, 2),
        7 => (vec![length], vec![65 * length], &request.c, 1),
        _ => (vec![length], payloads, &request.b, 1),
    };
    let wrong_strip = request.op == 7 && request.b.len() != 64 * length;
    let counts = [2, 7].contains(&request.op);
    let bad_record = (request.a.chunks_exact(RECORD_BYTES).enumerate())
        .any(|(i, record)| !broken(i, length, record).is_empty());
    let ceiling = usize::from(request.ceiling);
    let conditions = [
        request.n > MOST || request.a.len() != RECORD_BYTES * length,
        bad_record,
        all_frozen(request),
        !suits(r),
        request.op > 0 && (!lengths.contains(&symbols.len()) || wrong_strip),
        request.op > 0 && symbols.iter().any(|&symbol| symbol > largest),
        request.op > 0 && rooms.iter().all(|&needed| request.o < needed),
        counts && ceiling > LARGEST_CEILING,
        counts && unknowns(request) > ceiling,
    ];
    (ORDER.into_iter().zip(conditions))
        .filter(|&(_, applies)| applies)
        .map(|(code, _)| code)
        .collect()
}

/// Each of the first so many refusals comes first, alone and before every later one, at every n
/// where it can: `seen` says of n, a refusal and a later one whether it does, where that is held.
fn hold_refusals(op: u16, count: usize, seen: fn(u16, u16, u16) -> Option<bool>) {
    let mut alone = BTreeSet::new();
    let mut before = BTreeSet::new();
    for (request, answer, out) in answered(op) {
        let codes = applying(request);
        let Some(&first) = codes.first() else {
            assert!(answer.code <= 2, "{request:?}");
            continue;
        };
        assert_eq!(answer.code, first, "{request:?}");
        assert!(out.iter().all(|&byte| byte == 165), "untouched");
        let n = request.n % 256;
        if codes.len() == 1 {
            alone.insert((n, first));
        }
        before.extend(codes.iter().map(|&code| (n, first, code)));
    }
    for n in 0..=MOST {
        for (at, &first) in ORDER[..count].iter().enumerate() {
            // strips of long codes: what is not about the sheet; in the longest 17 comes with 18
            let held = match op {
                7 => n < LONG || (at >= OF_SHEET && (n, first) != (MOST, 17)),
                _ => exponents().contains(&n),
            };
            assert!(
                !held || alone.contains(&(n, first)),
                "op {op}, n {n}: {first}"
            );
            for &later in &ORDER[at + 1..count] {
                let has = before.contains(&(n, first, later));
                let expected = seen(n, first, later).unwrap_or(has);
                assert_eq!(has, expected, "op {op}, n {n}: {first}, {later}");
            }
        }
    }
}

#[test]
fn every_refusal_in_its_order() {
    // between the shortest and the longest of the long codes, the first two
    hold_refusals(0, OF_SHEET, |n, first, _| {
        (exponents().contains(&n) || first < 13).then_some(true)
    });
    hold_refusals(1, OF_CODEC, |_, _, _| Some(true));
    // with no free position the payload needs no room; from 64 symbols on 11 and 12 come with it
    hold_refusals(3, OF_CODEC, |n, first, later| match (n, first, later) {
        (_, 19, 16) => Some(false),
        (6.., 11 | 12, 16) => None,
        _ => Some(true),
    });
    // g is above the largest ceiling in the longest words alone; of one symbol, a bad one leaves none
    // to be lost; with no free position g is 0
    hold_refusals(2, ORDER.len(), |n, first, later| match (n, first, later) {
        (..MOST, 17, 18) | (0, 15, 18) | (_, 19, 18) => Some(false),
        (_, _, 18) if !exponents().contains(&n) => None,
        _ => Some(true),
    });
    // the same of the marks of a strip
    hold_refusals(7, ORDER.len(), |n, first, later| match (n, first, later) {
        (..MOST, 17, 18) | (0, 15, 18) | (_, 19, 18) => Some(false),
        (8, _, 18) | (MOST, 11 | 12, 18) => None,
        _ => Some(true),
    });
}

#[test]
fn sheets_with_no_free_position() {
    for op in 0..4 {
        let mut refused = BTreeSet::new();
        let mut bad = BTreeSet::new();
        let mut one_free = BTreeSet::new();
        for (request, answer, out) in answered(op) {
            let free = kinds_of(request).iter().filter(|&&kind| kind == 0).count();
            match answer.code {
                19 => {
                    assert_eq!(answer, &Answer::code(19));
                    assert!(out.iter().all(|&byte| byte == 165) && all_frozen(request));
                    refused.insert((request.n, request.r));
                }
                12 if all_frozen(request) => {
                    bad.insert((request.n, kind_of_place(answer.place, 1 << request.n)));
                }
                0..=2 => {
                    assert!(free > 0);
                    if (free, request.r) == (1, 0) {
                        one_free.insert(request.n);
                    }
                }
                _ => {}
            }
        }
        for n in exponents() {
            let checks: Vec<u16> = match n {
                0..5 => (0..=13).chain([255, 256, 262, 267, 65535]).collect(),
                _ => vec![0],
            };
            for r in checks {
                assert!(refused.contains(&(n, r)), "op {op}, n {n}, r {r}");
            }
            // one symbol is the first alone, two have none between
            let places = match n {
                0 => &[0][..],
                1 => &[0, 2],
                2..5 => &[0, 1, 2],
                _ => &[],
            };
            for &place in places {
                assert!(bad.contains(&(n, place)), "op {op}, n {n}, place {place}");
            }
            assert!(n > LONG || one_free.contains(&n), "op {op}, n {n}: K = 1");
        }
    }
}

/// The borders of b and of the output, and symbols above the largest at each kind of place.
fn hold_borders(op: u16, largest: u8) {
    let mut checks = BTreeSet::new();
    let mut symbols = BTreeSet::new();
    let mut lengths = BTreeSet::new();
    let mut rooms = BTreeSet::new();
    for (request, answer, _) in answered(op) {
        let Ok(sheet) = Sheet::read(request.n.into(), &request.a, request.r.into()) else {
            checks.extend((answer.code == 13).then_some(request.r));
            continue;
        };
        let payload = sheet.k() - usize::from(request.r);
        let (length, room) = match op {
            1 => (payload, sheet.length()),
            2 => (sheet.length(), 3 * sheet.length()),
            _ => (sheet.length(), payload),
        };
        match answer.code {
            14 => {
                lengths.insert((request.n, request.b.len() as isize - length as isize));
            }
            15 => {
                let value = request.b[usize::from(answer.place)];
                symbols.insert((kind_of_place(answer.place, length), value));
            }
            _ => {
                rooms.insert((request.n, request.o as isize - room as isize));
            }
        }
    }
    for r in (1..=13).chain([255, 256, 262, 267, 65535]) {
        assert!(checks.contains(&r), "op {op}, r {r}");
    }
    for place in 0..3 {
        for value in [largest + 1, 255] {
            assert!(
                symbols.contains(&(place, value)),
                "op {op}, {place} {value}"
            );
        }
    }
    for n in exponents() {
        for off in [-1, 1] {
            assert!(lengths.contains(&(n, off)), "op {op}, n {n}, {off}");
        }
        let offs = if n < LONG { -1..=2 } else { -1..=1 };
        for off in offs {
            assert!(rooms.contains(&(n, off)), "op {op}, n {n}, {off}");
        }
    }
}

#[test]
fn every_border() {
    hold_borders(1, 1);
    hold_borders(2, 2);
    hold_borders(3, 1);
}
