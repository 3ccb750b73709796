// What the strips end to end must reach: both rooms one off, every answer record, a good strip behind a
// bad one, and strips that are cut off.

use crate::common::numbers_of;
use crate::lists::{answered, LONG, MOST};
use second::answer::Answer;
use second::limits::{HEADER_BYTES, RECORD_BYTES};
use std::collections::BTreeSet;

#[test]
fn strips_end_to_end_reach_what_they_must() {
    let mut records = BTreeSet::new();
    let mut rooms = BTreeSet::new();
    let mut counts = BTreeSet::new();
    let mut rests = BTreeSet::new();
    let mut after_spoilt = BTreeSet::new();
    let mut one_record = BTreeSet::new();
    let mut split = BTreeSet::new();
    for (request, answer, out) in answered(15) {
        let choice = request.c.len().min(request.n.into());
        let n = (0..=MOST).find(|n| request.a.len() == RECORD_BYTES << n);
        let (count, part) = match n {
            Some(n) if choice == 2 => (request.b.len().div_ceil(64 << n), 65 << n),
            _ => (1, 0),
        };
        let in_records = request.o.min(request.r.into());
        let of_records = in_records as isize - (HEADER_BYTES * count) as isize;
        let of_repaired = (request.o - in_records) as isize - (part * count) as isize;
        rooms.insert((of_records.clamp(-2, 1), of_repaired.clamp(-2, 1)));
        split.insert((
            usize::from(request.n) > request.c.len(),
            usize::from(request.r) > request.o,
        ));
        let short = of_records < 0 || of_repaired < 0;
        assert_eq!(answer, &Answer::code(if short { 16 } else { 0 }));
        if short {
            assert!(out.iter().all(|&byte| byte == 165), "untouched");
            continue;
        }
        let (of_records, repaired) = out.split_at(in_records);
        assert!(of_records[HEADER_BYTES * count..]
            .iter()
            .all(|&byte| byte == 165));
        assert!(repaired[part * count..].iter().all(|&byte| byte == 165));
        let of_records = of_records.chunks(HEADER_BYTES).take(count);
        let codes: Vec<u16> = of_records
            .clone()
            .map(|record| numbers_of(record)[0])
            .collect();
        assert!(of_records.clone().all(|record| record[10..] == [0; 6]));
        if part == 0 {
            one_record.insert((n, codes[0], request.b.is_empty()));
            continue;
        }
        let n = n.unwrap();
        counts.insert((n, count));
        rests.insert((n, request.b.len() % (64 << n)));
        for (k, &code) in codes.iter().enumerate() {
            records.insert((n, code));
            let theirs = &repaired[part * k..][..part];
            assert_eq!(code > 1, theirs.iter().all(|&byte| byte == 255));
        }
        after_spoilt.extend(codes.windows(2).any(|w| w[0] == 2 && w[1] < 2).then_some(n));
    }
    for short in [(-1, 0), (0, -1), (-1, -1), (-1, 1), (1, -1), (1, 1), (0, 0)] {
        assert!(rooms.contains(&short), "{short:?}");
    }
    for both in [(false, false), (true, false), (false, true), (true, true)] {
        assert!(split.contains(&both), "{both:?}");
    }
    assert!([true, false]
        .iter()
        .all(|&empty| one_record.contains(&(None, 11, empty))));
    for n in 0..=MOST {
        let codes = match n {
            0..5 => &[0, 1, 2, 12, 13, 14, 15, 18, 19][..],
            5 | 6 => &[0, 2, 14],
            _ => &[],
        };
        for &code in codes {
            // one symbol has no rule to break
            let possible = (n, code) != (0, 2);
            assert_eq!(records.contains(&(n, code)), possible, "n {n}, {code}");
        }
        assert!(records.iter().any(|&(m, code)| m == n && code < 3), "n {n}");
        for count in [0, 1, 3, 5] {
            assert!(
                n > 4 || counts.contains(&(n, count)),
                "n {n}, {count} strips"
            );
        }
        assert!(n == 0 || n > 5 || after_spoilt.contains(&n), "n {n}");
        assert!(
            n > 7 || rests.iter().any(|&(m, rest)| m == n && rest > 0),
            "n {n}"
        );
        assert!(n > 3 || rests.contains(&(n, (64 << n) - 1)), "n {n}");
        let held = n <= LONG || n == MOST;
        assert!(
            !held
                || [true, false]
                    .iter()
                    .any(|&e| one_record.contains(&(Some(n), 13, e)))
        );
    }
}
