// What the old sheets must reach: handed to the calls that refuse them, and converted, with every rule
// that a record can break and every length and room one off.

use crate::common::lone;
use crate::lists::{answered, broken, telling_places, Answered, LONG};
use second::answer::Answer;
use second::calls::ANSWER_BYTES;
use second::layout::OLD;
use second::limits::RECORD_BYTES;
use second::sheet::Sheet;
use std::collections::{BTreeMap, BTreeSet};

/// The requests of an op whose sheet is of N = 2^n old records.
fn old_sheets(op: u16, n: u16) -> impl Iterator<Item = &'static Answered> {
    let length = OLD.record_bytes() << n;
    (answered(op).iter()).filter(move |(request, ..)| request.a.len() == length)
}

#[test]
fn old_sheets_handed_in_directly() {
    for n in 0..=OLD.largest_exponent as u16 {
        for op in 0..4 {
            let mut kept = BTreeSet::new();
            for (request, answer, out) in old_sheets(op, n) {
                assert_eq!(answer, &Answer::code(11));
                assert!(out.iter().all(|&byte| byte == 165));
                if request.n == n {
                    let records = OLD.read(n.into(), &request.a).ok();
                    kept.extend(records.map(|records| Sheet { records }.k() > 0));
                }
            }
            assert_eq!(
                kept.len(),
                2,
                "op {op}, n {n}: with a free position and without"
            );
        }
        let mut read = 0;
        for (request, answer, out) in old_sheets(4, n) {
            assert_eq!(answer, &Answer::code(0));
            assert_eq!(out[..ANSWER_BYTES], lone(11));
            read += usize::from(OLD.read(n.into(), &request.a).is_ok() && request.b.len() > 1 << n);
        }
        assert!(read >= 3, "n {n}");
    }
}

#[test]
fn conversions_reach_what_they_must() {
    let size = OLD.record_bytes();
    let most = OLD.largest_exponent as u16;
    let mut kinds: BTreeMap<(u16, u16), BTreeSet<u8>> = BTreeMap::new();
    let mut free = BTreeSet::new();
    let mut rooms = BTreeSet::new();
    let mut lengths = BTreeSet::new();
    let mut refusals = BTreeSet::new();
    let mut large = BTreeSet::new();
    let mut new_layout = BTreeSet::new();
    let mut allowed = BTreeSet::new();
    let mut barred = BTreeSet::new();
    for (request, answer, out) in answered(5) {
        let low = request.n % 8;
        let needed = RECORD_BYTES << low;
        let wrong_length = request.n > most || request.a.len() != size << request.n;
        let records = || request.a.chunks_exact(size).enumerate();
        let bad = records().position(|(i, record)| !broken(i, 1 << low, record).is_empty());
        let short = request.o < needed;
        let applying = [(11, wrong_length), (12, bad.is_some()), (16, short)];
        let applying: Vec<u16> = (applying.into_iter())
            .filter(|&(_, applies)| applies)
            .map(|(code, _)| code)
            .collect();
        refusals.insert((low, applying.clone()));
        let expected = match applying.first() {
            Some(12) => Answer::at(12, bad.unwrap()),
            Some(&code) => Answer::code(code),
            None => Answer::code(0),
        };
        assert_eq!(answer, &expected);
        let written = if answer.code == 0 { needed } else { 0 };
        assert!(out[written..].iter().all(|&byte| byte == 165));
        match answer.code {
            0 => {
                // each record, then 48 zeros
                for ((_, old), new) in records().zip(out.chunks(RECORD_BYTES)) {
                    assert_eq!(new[..size], *old);
                    assert!(new[size..].iter().all(|&byte| byte == 0));
                }
                let records = OLD.read(request.n.into(), &request.a).unwrap();
                let sheet = Sheet { records };
                free.insert((low, sheet.k().min(2)));
                for record in sheet.records {
                    allowed.extend(record.named);
                }
            }
            12 => {
                let place = usize::from(answer.place);
                let record = &request.a[size * place..][..size];
                let broken = broken(place, 1 << low, record);
                let named =
                    (0..8 * OLD.mask_bytes).filter(|j| record[4 + j / 8] >> (j % 8) & 1 == 1);
                let named: Vec<usize> = named.collect();
                if let (1, &[j]) = (broken.len(), &named[..]) {
                    barred.insert((j, record[0]));
                }
                kinds.entry((low, answer.place)).or_default().extend(broken);
            }
            16 => (),
            _ if request.n > most => {
                large.insert(request.n);
            }
            _ => {
                let off = request.a.len() as isize - (size << request.n) as isize;
                lengths.insert((request.n, off));
                new_layout.extend((request.a.len() == needed).then_some(request.n));
            }
        }
        if [0, 16].contains(&answer.code) {
            rooms.insert((low, request.o as isize - needed as isize));
        }
    }
    for n in 0..=most {
        for codes in [
            &[][..],
            &[11],
            &[12],
            &[16],
            &[11, 12],
            &[11, 16],
            &[12, 16],
            &[11, 12, 16],
        ] {
            assert!(refusals.contains(&(n, codes.to_vec())), "n {n}, {codes:?}");
        }
        for k in 0..=2.min(1 << n) {
            assert!(free.contains(&(n, k)), "n {n}, K {k}");
        }
        for off in [-1, 0, 1] {
            assert!(rooms.contains(&(n, off)), "n {n}, room {off}");
            assert!(
                off == 0 || lengths.contains(&(n, off)),
                "n {n}, length {off}"
            );
        }
        assert!(new_layout.contains(&n), "n {n}");
        let places = match n {
            0..LONG => (0..1 << n).collect(),
            _ => telling_places(n).to_vec(),
        };
        let mut all = BTreeSet::new();
        for place in places {
            let seen = kinds.get(&(n, place)).cloned().unwrap_or_default();
            assert!(!seen.is_empty(), "n {n}, place {place}");
            all.extend(seen);
        }
        // N = 1 has no later position and the longest none past it
        let expected: BTreeSet<u8> = (0..9)
            .filter(|&rule| (n, rule) != (0, 7) && (n, rule) != (most, 8))
            .collect();
        assert_eq!(all, expected, "n {n}");
        assert!(large.contains(&(64 + n)), "64 + {n}");
    }
    assert!([8, 9, 65535].iter().all(|n| large.contains(n)), "{large:?}");
    let bits = 8 * OLD.mask_bytes;
    assert_eq!(allowed, (0..bits - 1).collect());
    for j in 0..bits {
        assert!(
            [0, 1].iter().all(|&kind| barred.contains(&(j, kind))),
            "{j}"
        );
    }
}
