// Op 5, convert: old sheets of every N, the refusals 11, 12 and 16 alone and together, bad records at
// every place of a short sheet, every bit of a mask allowed and barred, and rooms at the edge.

use super::parts::{any_sheet, old_sheet, old_sheets, spoil_in, telling_places};
use crate::layout::{Record, NEW, OLD};
use crate::limits::LARGEST_EXPONENT;
use crate::make::{faults_at, spoil};
use crate::protocol::Request;
use crate::rng::Rng;

pub fn all() -> Vec<Request> {
    [
        good_sheets(),
        lengths(),
        large_exponents(),
        new_sheets(),
        first_bad_places(),
        mask_bits(),
        rooms(),
        refusal_order(),
    ]
    .concat()
}

/// The bytes that a sheet of N = 2^n records takes when it is converted.
fn needed(n: usize) -> usize {
    NEW.record_bytes() << n
}

/// A request of op 5; r and the ceiling are not looked at.
fn convert(rng: &mut Rng, n: usize, old: Vec<u8>, o: usize) -> Request {
    let [r, ceiling] = [(); 2].map(|()| rng.pick(&[0, 0, 0, 5, 65535]));
    Request {
        op: 5,
        n: n as u16,
        r,
        ceiling,
        a: old,
        o,
        ..Request::default()
    }
}

/// Any old sheet with a K of its own, 0 too.
fn any_old(rng: &mut Rng, n: usize) -> Vec<u8> {
    let k = rng.within(0, 1 << n);
    old_sheet(rng, n, k)
}

/// How often a list has each kind of sheet: less often of long ones.
fn rounds(n: usize) -> usize {
    [8, 8, 8, 6, 4, 2, 1, 1][n]
}

/// Sheets of every N, K = 0 and K = 1 among them, in a room that is exact or longer.
fn good_sheets() -> Vec<Request> {
    let mut rng = Rng::new(600);
    let mut list = Vec::new();
    for (n, sheet) in old_sheets(&mut rng) {
        for o in [needed(n), needed(n) + 5] {
            list.push(convert(&mut rng, n, sheet.clone(), o));
        }
    }
    for n in 0..=OLD.largest_exponent {
        for _ in 0..rounds(n) {
            let sheet = any_old(&mut rng, n);
            list.push(convert(&mut rng, n, sheet, needed(n)));
        }
    }
    list
}

/// Sheets too short and too long by a byte and by a record, half and twice as long, and of none. 11
/// needs no room.
fn lengths() -> Vec<Request> {
    let mut rng = Rng::new(601);
    let mut list = Vec::new();
    let one = OLD.record_bytes();
    for n in 0..=OLD.largest_exponent {
        let right = one << n;
        for length in [
            0,
            right / 2,
            right - one,
            right - 1,
            right + 1,
            right + one,
            2 * right,
        ] {
            let mut sheet = any_old(&mut rng, n);
            sheet.resize(length, 0);
            list.push(convert(&mut rng, n, sheet, needed(n.min(4))));
        }
    }
    list
}

/// n above the largest: by one and two, by what a shift by n cut short would allow, and far; with
/// sheets of the length that the low bits of n ask for.
fn large_exponents() -> Vec<Request> {
    let mut rng = Rng::new(602);
    let mut list = Vec::new();
    let next = OLD.largest_exponent + 1;
    let twice = vec![0; OLD.record_bytes() << next];
    list.push(convert(&mut rng, next, twice, needed(next)));
    for n in [next, next + 1, next + 2, 255, 256, 65535] {
        let sheet = any_old(&mut rng, 3);
        list.push(convert(&mut rng, n, sheet, needed(3)));
    }
    for n in 0..=OLD.largest_exponent {
        for past in [8, 16, 32, 64, 256] {
            let sheet = any_old(&mut rng, n);
            list.push(convert(&mut rng, n + past, sheet, needed(n.min(4))));
        }
    }
    list
}

/// Sheets of today's layout, of every N, converted once more.
fn new_sheets() -> Vec<Request> {
    let mut rng = Rng::new(603);
    (0..=LARGEST_EXPONENT)
        .map(|n| {
            let sheet = any_sheet(&mut rng, n);
            convert(&mut rng, n, sheet, needed(n.min(4)))
        })
        .collect()
}

/// The first bad place: every one of a short sheet by every kind of fault or some, and the telling
/// ones of a long sheet; every other time a later record is bad too.
fn first_bad_places() -> Vec<Request> {
    let mut rng = Rng::new(604);
    let mut list = Vec::new();
    for n in 0..=OLD.largest_exponent {
        for (at, place) in telling_places(1 << n).into_iter().enumerate() {
            let mut faults = faults_at(OLD, 1 << n, place);
            let turn = 5 * at % faults.len();
            faults.rotate_left(turn);
            let kinds = [12, 12, 12, 12, 3, 2, 1, 4][n].min(faults.len());
            for &fault in &faults[..kinds] {
                let mut sheet = any_old(&mut rng, n);
                spoil(&mut rng, OLD, &mut sheet, place, fault);
                if list.len() % 2 == 1 && place + 1 < 1 << n {
                    let later = rng.within(place + 1, (1 << n) - 1);
                    spoil_in(&mut rng, OLD, &mut sheet, later);
                }
                // 12 needs no room
                let o = rng.pick(&[0, 3]);
                list.push(convert(&mut rng, n, sheet, o));
            }
        }
    }
    list
}

/// Every bit of a mask: barred in the first record and in a free one; barred in the record of its
/// position and allowed in the next, in the shortest sheet that has it, of long ones at the telling
/// places; allowed in sheets whose records name the one before, and all before.
fn mask_bits() -> Vec<Request> {
    let mut rng = Rng::new(605);
    let mut list = Vec::new();
    let bits = 8 * OLD.mask_bytes;
    for j in 0..bits {
        let mut records = vec![(0, 0, true), (1, 1, false)];
        for i in [j, j + 1].into_iter().filter(|&i| i < bits) {
            if i < 32 || telling_places(bits).contains(&j) {
                records.push(((i + 1).next_power_of_two().ilog2() as usize, i, true));
            }
        }
        for (n, i, frozen) in records {
            let mut sheet = vec![0; OLD.record_bytes() << n];
            sheet[OLD.record_bytes() * i] = u8::from(frozen);
            OLD.name(&mut sheet, i, j);
            list.push(convert(&mut rng, n, sheet, needed(n)));
        }
    }
    for n in 0..=OLD.largest_exponent {
        for most in [1, bits] {
            let record = |i: usize| Record {
                frozen: true,
                constant: i % 3 == 1,
                named: (i.saturating_sub(most)..i).collect(),
            };
            let records: Vec<Record> = (0..1 << n).map(record).collect();
            list.push(convert(&mut rng, n, OLD.write(&records), needed(n)));
        }
    }
    list
}

/// Rooms without a byte, too short by one and by a record, exact, and longer.
fn rooms() -> Vec<Request> {
    let mut rng = Rng::new(606);
    let mut list = Vec::new();
    for n in 0..=OLD.largest_exponent {
        let exact = needed(n);
        let record = NEW.record_bytes();
        for o in [0, exact - record, exact - 1, exact, exact + 1, exact + 70] {
            let sheet = any_old(&mut rng, n);
            list.push(convert(&mut rng, n, sheet, o));
        }
    }
    list
}

/// Every combination of 11 (two ways), 12 and 16.
fn refusal_order() -> Vec<Request> {
    let mut rng = Rng::new(607);
    let mut list = Vec::new();
    for n in 0..=OLD.largest_exponent {
        for length_fault in 0..3 {
            for bad_record in [false, true] {
                for short in [false, true] {
                    let mut sheet = any_old(&mut rng, n);
                    if bad_record {
                        let i = rng.below(1 << n);
                        spoil_in(&mut rng, OLD, &mut sheet, i);
                    }
                    if length_fault == 1 {
                        sheet.pop();
                    }
                    let past = if length_fault == 2 { 8 } else { 0 };
                    let room = if length_fault < 2 { n } else { n.min(4) };
                    let o = needed(room) - usize::from(short);
                    list.push(convert(&mut rng, n + past, sheet, o));
                }
            }
        }
    }
    list
}
