// Op 0, check_sheet: every refusal and every rule of a record, at every place of a short sheet and
// at the edges of bytes and words of a long one.
// Each list has its own seed, so that a new list changes no other.

use super::parts::{
    any_checks, any_sheet, any_style, exponents, first_middle_last, none_free, old_sheets,
    spoil_frozen, spoil_somehow, telling_places, Code, CHECKS, LONG, WRONG_CHECKS,
};
use crate::layout::{Record, NEW};
use crate::limits::{LARGEST_EXPONENT, MASK_BYTES, RECORD_BYTES};
use crate::make::{bytes, faults_at, good, spoil, Fault, STYLES};
use crate::protocol::{Request, INPUT_ROOM};
use crate::rng::Rng;

/// Every request, in its order.
pub fn all() -> Vec<Request> {
    [
        lengths(),
        large_exponents(),
        good_sheets(),
        full_sheets(),
        first_bad_places(),
        mask_bits(),
        single_bytes(),
        several_bad(),
        random_bytes(),
        wrong_checks(),
        small_k(),
        refusal_order(),
        old_layout(),
    ]
    .concat()
}

/// A request of op 0; the ceiling is not looked at and the output is never written.
fn check_sheet(rng: &mut Rng, n: usize, sheet: Vec<u8>, r: usize) -> Request {
    Request {
        op: 0,
        n: n as u16,
        r: r as u16,
        ceiling: if rng.below(8) == 0 { 65535 } else { 0 },
        a: sheet,
        o: if rng.below(8) == 0 {
            rng.within(1, 9)
        } else {
            0
        },
        ..Request::default()
    }
}

/// Sheets of every N, right, too short and too long; long ones by a byte or half.
fn lengths() -> Vec<Request> {
    let mut rng = Rng::new(1);
    let mut list = Vec::new();
    for n in 0..=LARGEST_EXPONENT {
        let right = RECORD_BYTES << n;
        let lengths = [
            0,
            1,
            right / 2,
            right - RECORD_BYTES,
            right - 1,
            right,
            right + 1,
            right + RECORD_BYTES,
            2 * right,
        ];
        let near = |length: usize| n < LONG || length.abs_diff(right) <= 1 || length == right / 2;
        for length in lengths.into_iter().filter(|&length| near(length)) {
            let mut sheet = Code::any(&mut rng, n, 0).sheet;
            sheet.resize(length, 0);
            list.push(check_sheet(&mut rng, n, sheet, 0));
        }
    }
    list
}

/// n above the largest, with lengths that a shift by n cut short would allow.
fn large_exponents() -> Vec<Request> {
    let mut rng = Rng::new(2);
    let mut list = Vec::new();
    let next = LARGEST_EXPONENT + 1;
    for n in [
        next,
        next + 1,
        next + 2,
        15,
        16,
        31,
        32,
        32 + LARGEST_EXPONENT,
        61,
        62,
        63,
        64,
        64 + LARGEST_EXPONENT,
        127,
        128,
        255,
        256,
        256 + LARGEST_EXPONENT,
        32768,
        65535,
    ] {
        let low = Some(n % 32).filter(|&low| low <= LARGEST_EXPONENT);
        for sheet in [
            Vec::new(),
            any_sheet(&mut rng, 0),
            any_sheet(&mut rng, low.unwrap_or(0)),
        ] {
            list.push(check_sheet(&mut rng, n, sheet, 0));
        }
    }
    // no request has room for the right length of the next n
    list.push(check_sheet(&mut rng, next, vec![0; INPUT_ROOM], 0));
    list
}

/// Good sheets of every N, style and check length: K above r where N allows it. Long ones of every
/// check length, each with another style.
fn good_sheets() -> Vec<Request> {
    let mut rng = Rng::new(3);
    let mut list = Vec::new();
    for n in exponents() {
        for (at, r) in CHECKS.into_iter().enumerate() {
            let styles = match n {
                0..LONG => &STYLES[..],
                _ => &STYLES[(n + at) % 4..][..1],
            };
            for &style in styles {
                for _ in 0..[6, 6, 6, 6, 4, 2, 1].get(n).copied().unwrap_or(1) {
                    let least = (r + 1).min(1 << n);
                    let k = rng.within(least, 1 << n);
                    let sheet = good(&mut rng, 1 << n, k, style);
                    list.push(check_sheet(&mut rng, n, sheet, r));
                }
            }
        }
    }
    list
}

/// All free; all frozen, plain, each naming the one before it, or all before it; and these with the
/// first or the last position free. Of the long sheets those that name all before, the last free or
/// none.
fn full_sheets() -> Vec<Request> {
    let mut rng = Rng::new(4);
    let mut list = Vec::new();
    for n in exponents() {
        let frozen = |i: usize, named: Vec<usize>| Record {
            frozen: true,
            constant: i % 3 == 1,
            named,
        };
        let frozen_sheets: [Vec<Record>; 3] = [
            (0..1 << n).map(|i| frozen(i, Vec::new())).collect(),
            (0..1 << n)
                .map(|i| frozen(i, (i.max(1) - 1..i).collect()))
                .collect(),
            (0..1 << n).map(|i| frozen(i, (0..i).collect())).collect(),
        ];
        let mut sheets = vec![vec![Record::default(); 1 << n]];
        for sheet in frozen_sheets {
            for free in [0, (1 << n) - 1] {
                let mut other = sheet.clone();
                other[free] = Record::default();
                sheets.push(other);
            }
            sheets.push(sheet);
        }
        if n >= LONG {
            sheets.drain(..sheets.len() - 2);
        }
        for records in sheets {
            let checks = if n < 6 { &CHECKS[..] } else { &CHECKS[..1] };
            for &r in checks {
                list.push(check_sheet(&mut rng, n, bytes(&records), r));
            }
        }
    }
    list
}

/// The first bad place: every one of a short sheet by several kinds of fault, naming itself always
/// among them, of 64 symbols and more by one kind each, and the telling ones of a long sheet; every
/// other time a later record is bad too.
fn first_bad_places() -> Vec<Request> {
    let mut rng = Rng::new(5);
    let mut list = Vec::new();
    for n in 0..=LARGEST_EXPONENT {
        let kinds = match n {
            0..=3 => usize::MAX,
            4 => 6,
            5 => 2,
            _ => 1,
        };
        for (at, place) in telling_places(1 << n).into_iter().enumerate() {
            let mut faults = faults_at(NEW, 1 << n, place);
            let turn = 5 * at % faults.len();
            faults.rotate_left(turn);
            if n < 6 {
                faults.retain(|&fault| fault != Fault::NamesItself);
                faults.insert(0, Fault::NamesItself);
            }
            for (count, fault) in faults.into_iter().take(kinds).enumerate() {
                let mut sheet = any_sheet(&mut rng, n);
                spoil(&mut rng, NEW, &mut sheet, place, fault);
                if (count + at) % 2 == 1 && place + 1 < 1 << n {
                    let later = rng.within(place + 1, (1 << n) - 1);
                    spoil_somehow(&mut rng, &mut sheet, later);
                }
                let r = CHECKS[list.len() % 3];
                list.push(check_sheet(&mut rng, n, sheet, r));
            }
        }
    }
    list
}

/// Every bit of the mask: alone in a frozen record, in a free one, and around the border in the
/// shortest sheet that has the position, of the long ones where a word begins.
fn mask_bits() -> Vec<Request> {
    let mut rng = Rng::new(6);
    let mut list = Vec::new();
    for j in 0..8 * MASK_BYTES {
        for (n, i, frozen) in [(0, 0, true), (1, 1, true), (1, 1, false)] {
            let mut sheet = vec![0; RECORD_BYTES << n];
            sheet[RECORD_BYTES * i] = u8::from(frozen);
            NEW.name(&mut sheet, i, j);
            list.push(check_sheet(&mut rng, n, sheet, 0));
        }
    }
    for j in telling_places(1 << LARGEST_EXPONENT) {
        for i in [j, j + 1]
            .into_iter()
            .filter(|i| *i < 128 || [128, 256, 384].contains(i))
        {
            let n = (i + 1).next_power_of_two().ilog2() as usize;
            let mut sheet = vec![0; RECORD_BYTES << n];
            sheet[RECORD_BYTES * i] = 1;
            NEW.name(&mut sheet, i, j);
            list.push(check_sheet(&mut rng, n, sheet, 0));
        }
    }
    list
}

/// N = 1: each byte of a free and of a frozen record alone set to a few values.
fn single_bytes() -> Vec<Request> {
    let mut rng = Rng::new(7);
    let mut list = Vec::new();
    for kind in [0, 1] {
        for at in 0..RECORD_BYTES {
            for value in [1, 2, 128, 255] {
                let mut sheet = vec![0; RECORD_BYTES];
                sheet[0] = kind;
                sheet[at] = value;
                list.push(check_sheet(&mut rng, 0, sheet, 0));
            }
        }
    }
    list
}

/// Up to five bad records, of which the first is reported.
fn several_bad() -> Vec<Request> {
    let mut rng = Rng::new(8);
    let mut list = Vec::new();
    for n in exponents().into_iter().skip(1) {
        for _ in 0..[25, 25, 25, 25, 20, 10, 5].get(n).copied().unwrap_or(1) {
            let mut sheet = any_sheet(&mut rng, n);
            for _ in 0..rng.within(2, 5) {
                let i = rng.below(1 << n);
                spoil_somehow(&mut rng, &mut sheet, i);
            }
            let r = CHECKS[rng.below(3)];
            list.push(check_sheet(&mut rng, n, sheet, r));
        }
    }
    list
}

/// Good sheets with one byte set to any value, which may or may not break a rule.
fn random_bytes() -> Vec<Request> {
    let mut rng = Rng::new(9);
    let mut list = Vec::new();
    for n in exponents() {
        for _ in 0..[30, 30, 30, 30, 20, 10, 5].get(n).copied().unwrap_or(1) {
            let mut sheet = any_sheet(&mut rng, n);
            let at = rng.below(sheet.len());
            sheet[at] = rng.below(256) as u8;
            list.push(check_sheet(&mut rng, n, sheet, 0));
        }
    }
    list
}

/// Check lengths that are not of the scope, on good sheets.
fn wrong_checks() -> Vec<Request> {
    let mut rng = Rng::new(10);
    let mut list = Vec::new();
    for r in WRONG_CHECKS {
        for n in [0, 3, 5] {
            let sheet = Code::any(&mut rng, n, 0).sheet;
            list.push(check_sheet(&mut rng, n, sheet, r));
        }
    }
    list
}

/// K = 0 under every check length, of the scope and not, and with a bad record; K = 1 without a
/// check; K = 1, r - 1, r and r + 1 under one, as far as N allows it. Of sheets of 32 records and more
/// K = 0 and K = 1 without a check, K = 0 under a wrong one, r and r + 1 under one.
fn small_k() -> Vec<Request> {
    let mut rng = Rng::new(11);
    let mut list = Vec::new();
    for n in exponents().into_iter().filter(|&n| n >= 5) {
        for (k, r) in [(0, 0), (0, 5), (1, 0), (11, 11), (12, 11)] {
            let style = any_style(&mut rng);
            let sheet = good(&mut rng, 1 << n, k, style);
            list.push(check_sheet(&mut rng, n, sheet, r));
        }
    }
    for n in 0..5 {
        for r in any_checks() {
            let sheet = none_free(&mut rng, n);
            list.push(check_sheet(&mut rng, n, sheet, r));
        }
        for i in first_middle_last(1 << n) {
            let mut sheet = none_free(&mut rng, n);
            spoil_frozen(&mut rng, &mut sheet, i);
            list.push(check_sheet(&mut rng, n, sheet, 0));
        }
        for style in STYLES {
            let sheet = good(&mut rng, 1 << n, 1, style);
            list.push(check_sheet(&mut rng, n, sheet, 0));
            for r in [6, 11] {
                for k in [1, r - 1, r, r + 1] {
                    if k <= 1 << n {
                        let sheet = good(&mut rng, 1 << n, k, style);
                        list.push(check_sheet(&mut rng, n, sheet, r));
                    }
                }
            }
        }
    }
    list
}

/// Several refusals apply at once, in every combination of 11 (two ways), 12, 19 and 13 (two ways).
/// Of sheets of 32 records and more 11 and 12, each with all behind it.
fn refusal_order() -> Vec<Request> {
    let mut rng = Rng::new(12);
    let mut list = Vec::new();
    for n in 0..=LARGEST_EXPONENT {
        for length_fault in 0..3 {
            for bad_record in [false, true] {
                for all_frozen in [false, true] {
                    for r in [0, 11, 5] {
                        let all = length_fault < 2 && bad_record && all_frozen && r == 5;
                        if n >= 5 && !all {
                            continue;
                        }
                        let k = match (all_frozen, r) {
                            (true, _) => 0,
                            (_, 11) => 11.min(1 << n),
                            _ => 1,
                        };
                        let style = any_style(&mut rng);
                        let mut sheet = good(&mut rng, 1 << n, k, style);
                        let i = rng.below(1 << n);
                        match (bad_record, all_frozen) {
                            (true, true) => spoil_frozen(&mut rng, &mut sheet, i),
                            (true, false) => spoil_somehow(&mut rng, &mut sheet, i),
                            _ => {}
                        }
                        if length_fault == 1 {
                            sheet.push(0);
                        }
                        let past = if length_fault == 2 {
                            LARGEST_EXPONENT + 1
                        } else {
                            0
                        };
                        list.push(check_sheet(&mut rng, n + past, sheet, r));
                    }
                }
            }
        }
    }
    list
}

/// Sheets of 20-byte records, of every old N.
fn old_layout() -> Vec<Request> {
    let mut rng = Rng::new(13);
    let sheets = old_sheets(&mut rng).into_iter();
    sheets
        .map(|(n, sheet)| check_sheet(&mut rng, n, sheet, 0))
        .collect()
}
