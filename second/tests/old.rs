// The old layout and its converter: the same codewords in the same order, the same K, and the check
// says of the converted sheet what the old one would have said.

mod common;
use common::BEFORE;
use second::answer::Answer;
use second::brute::every_codeword;
use second::calls;
use second::check::polynomial;
use second::layout::{NEW, OLD};
use second::limits::{LARGEST_EXPONENT, RECORD_BYTES};
use second::make::{every_sheet, faults_at, good_records, spoil, STYLES};
use second::rng::Rng;
use second::sheet::Sheet;

/// The converted sheet; the bytes behind it stay.
fn converted(n: usize, old: &[u8]) -> Vec<u8> {
    let mut out = vec![BEFORE; (RECORD_BYTES << n) + 3];
    assert_eq!(calls::convert(n, old, &mut out), Answer::code(0));
    assert_eq!(out.split_off(RECORD_BYTES << n), [BEFORE; 3]);
    out
}

/// An old sheet and the converted one, each read in its layout.
fn before_and_after(n: usize, old: &[u8], new: &[u8]) -> [Sheet; 2] {
    [OLD.read(n, old), NEW.read(n, new)].map(|read| Sheet {
        records: read.unwrap(),
    })
}

/// What the check of before W-206 said: 11, 12, 19 and 13 on old records.
fn old_check(n: usize, old: &[u8], r: usize) -> Answer {
    let sheet = match OLD.read(n, old) {
        Ok(records) => Sheet { records },
        Err(refusal) => return refusal,
    };
    match (sheet.k(), polynomial(r)) {
        (0, _) => Answer::code(19),
        (_, None) => Answer::code(13),
        (k, _) if r > 0 && k <= r => Answer::code(13),
        _ => Answer::code(0),
    }
}

/// Record by record: the same kind, constant and names, and zeros behind.
fn hold_records(old: &[u8], new: &[u8]) {
    let size = OLD.record_bytes();
    assert_eq!(old.len() / size, new.len() / RECORD_BYTES);
    for (old, new) in old.chunks(size).zip(new.chunks(RECORD_BYTES)) {
        assert_eq!(new[..size], *old);
        assert!(new[size..].iter().all(|&byte| byte == 0));
    }
}

#[test]
fn an_old_sheet_byte_by_byte() {
    // record 4 of sheet E names position 3
    let mut old = vec![0; 8 * 20];
    for i in [0, 1, 2, 4] {
        old[20 * i] = 1;
    }
    old[20 * 4 + 4] = 8;
    assert_eq!(converted(3, &old), common::sheet_e());
    assert_eq!(OLD.write(&NEW.read(3, &common::sheet_e()).unwrap()), old);
}

#[test]
fn every_small_sheet_keeps_its_codewords() {
    for n in 0..=2 {
        let mut none_free = 0;
        for records in every_sheet(1 << n) {
            let old = OLD.write(&records);
            let new = converted(n, &old);
            hold_records(&old, &new);
            let [before, after] = before_and_after(n, &old, &new);
            assert_eq!(before.k(), after.k());
            none_free += usize::from(before.k() == 0);
            for r in [0, 6, 11] {
                assert_eq!(calls::check_sheet(n, &new, r), old_check(n, &old, r));
                assert_eq!(every_codeword(&before, r), every_codeword(&after, r));
            }
            assert!(!every_codeword(&before, 0).is_empty());
        }
        assert_eq!(none_free, [2, 8, 1024][n], "K = 0 is converted");
    }
}

#[test]
fn sheets_of_eight_keep_their_codewords() {
    let mut rng = Rng::new(1);
    let mut with_check = 0;
    for round in 0..400 {
        let style = STYLES[round % 4];
        let k = rng.within(0, 8);
        let old = OLD.write(&good_records(&mut rng, 8, k, style));
        let new = converted(3, &old);
        let [before, after] = before_and_after(3, &old, &new);
        assert_eq!(before.k(), after.k());
        for r in [0, 6] {
            let list = every_codeword(&before, r);
            with_check += usize::from(r > 0 && !list.is_empty());
            assert_eq!(list, every_codeword(&after, r));
        }
    }
    assert!(with_check > 50, "{with_check}");
}

#[test]
fn three_thousand_longer_sheets() {
    let mut rng = Rng::new(2);
    for round in 0..3000 {
        let n = rng.within(3, OLD.largest_exponent);
        let k = match round % 8 {
            0 => 0,
            _ => rng.within(0, 1 << n),
        };
        let records = good_records(&mut rng, 1 << n, k, STYLES[round % 4]);
        let old = OLD.write(&records);
        let new = converted(n, &old);
        hold_records(&old, &new);
        assert_eq!(NEW.read(n, &new), Ok(records));
        for r in [0, 6, 11, rng.below(20)] {
            assert_eq!(calls::check_sheet(n, &new, r), old_check(n, &old, r));
        }
    }
}

#[test]
fn bad_old_sheets_are_refused_at_their_first_bad_record() {
    let mut rng = Rng::new(3);
    for n in 0..=OLD.largest_exponent {
        for round in 0..100 {
            let k = rng.within(0, 1 << n);
            let mut old = OLD.write(&good_records(&mut rng, 1 << n, k, STYLES[round % 4]));
            let mut first = 1 << n;
            for _ in 0..rng.within(1, 3) {
                let place = rng.below(1 << n);
                let fault = rng.pick(&faults_at(OLD, 1 << n, place));
                spoil(&mut rng, OLD, &mut old, place, fault);
                first = place.min(first);
            }
            // 12 comes before 16
            for room in [0, (RECORD_BYTES << n) + 3] {
                let mut out = vec![BEFORE; room];
                assert_eq!(calls::convert(n, &old, &mut out), Answer::at(12, first));
                assert!(out.iter().all(|&byte| byte == BEFORE));
            }
        }
    }
}

#[test]
fn lengths_and_rooms_at_their_edges() {
    let size = OLD.record_bytes();
    let free = vec![0; size << (OLD.largest_exponent + 1)];
    for n in (0..=LARGEST_EXPONENT + 1).chain([63, 64, 71, 256, 65535]) {
        for length in (0..=8).flat_map(|m| [(size << m) - 1, size << m, (size << m) + 1]) {
            if length > free.len() {
                continue;
            }
            let right = n <= OLD.largest_exponent && length == size << n;
            let needed = RECORD_BYTES << n.min(OLD.largest_exponent);
            for (room, enough) in [(needed - 1, false), (needed, true)] {
                let expected = match (right, enough) {
                    (false, _) => 11,
                    (true, false) => 16,
                    (true, true) => 0,
                };
                let mut out = vec![BEFORE; room];
                let answer = calls::convert(n, &free[..length], &mut out);
                assert_eq!(answer, Answer::code(expected), "n {n}, {length} bytes");
                assert_eq!(out.contains(&BEFORE), expected != 0);
            }
        }
    }
}

#[test]
fn no_length_is_right_in_both_layouts() {
    for n in 0..=LARGEST_EXPONENT {
        for old in 0..=OLD.largest_exponent {
            let length = OLD.record_bytes() << old;
            assert_ne!(length, RECORD_BYTES << n);
            let sheet = vec![0; length];
            assert_eq!(calls::check_sheet(n, &sheet, 0), Answer::code(11));
        }
    }
}
