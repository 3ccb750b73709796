// What the streams must reach: every answer record that a word can have, every choice, cut-off words and
// rooms one off, and sheets with no free position.

use crate::common::{lone, numbers_of, sheet_e, symbols};
use crate::lists::{answered, broken};
use second::answer::Answer;
use second::calls::ANSWER_BYTES;
use second::limits::{LARGEST_EXPONENT, RECORD_BYTES};
use std::collections::BTreeSet;

#[test]
fn streams_reach_what_they_must() {
    let mut codes = BTreeSet::new();
    let mut records = BTreeSet::new();
    let mut rests = BTreeSet::new();
    let mut rooms = BTreeSet::new();
    let mut lengths = BTreeSet::new();
    let mut most = [0; LARGEST_EXPONENT + 1];
    for (request, answer, out) in answered(4) {
        codes.insert(answer.code);
        let n = (0..=LARGEST_EXPONENT).find(|n| request.a.len() == RECORD_BYTES << n);
        let count = match n {
            Some(n) if request.c.len() == 2 => request.b.len().div_ceil(1 << n),
            _ => 1,
        };
        let room = request.o as isize - (ANSWER_BYTES * count) as isize;
        rooms.insert(room);
        lengths.insert((n, request.c.len(), request.b.is_empty()));
        assert_eq!(answer, &Answer::code(if room < 0 { 16 } else { 0 }));
        let written = if room < 0 { 0 } else { ANSWER_BYTES * count };
        assert!(out[written..].iter().all(|&byte| byte == 165));
        let written: Vec<&[u8]> = out[..written].chunks(ANSWER_BYTES).collect();
        records.extend(written.iter().map(|record| (n, numbers_of(record)[0])));
        if let Some(n) = n {
            rests.insert((n, request.b.len() % (1 << n), room < 0));
            let different: BTreeSet<&[u8]> = written.into_iter().collect();
            most[n] = different.len().max(most[n]);
        }
    }
    assert_eq!(codes, BTreeSet::from([0, 16]));
    assert!([-1, 0, 1, 3].iter().all(|room| rooms.contains(room)));
    assert!(records.contains(&(None, 11)));
    for n in 0..=LARGEST_EXPONENT {
        let codes = match n {
            8 => &[0, 1, 2, 18][..],
            7 | 9 => &[0, 1, 2, 12, 14, 18, 19],
            _ => &[0, 1, 2, 12, 13, 14, 15, 18, 19],
        };
        for &code in codes {
            // one symbol is free and has no rule to break, and it cannot be cut off
            let possible = (n, code) != (0, 2) && (n, code) != (0, 14);
            assert_eq!(
                records.contains(&(Some(n), code)),
                possible,
                "n {n}, {code}"
            );
        }
        // a ceiling of one byte is never too large
        assert!(!records.contains(&(Some(n), 17)));
        for choice in 0..=3 {
            for empty in [false, true] {
                let held = n < 7
                    || (n != 8 && [(1, false), (3, true), (2, true)].contains(&(choice, empty)));
                assert!(
                    !held || lengths.contains(&(Some(n), choice, empty)),
                    "n {n}, {choice}"
                );
            }
        }
        assert!(n > 4 || (0..1 << n).all(|rest| rests.contains(&(n, rest, false))));
        assert!(most[n] >= if n == 0 { 3 } else { 5 }, "{most:?}");
    }
    for choice in [1, 2] {
        assert!([true, false]
            .iter()
            .all(|&empty| lengths.contains(&(None, choice, empty))));
    }
    let example = symbols("011110002");
    let rows = answered(4).iter().filter(|(request, ..)| {
        (&request.a, &request.b) == (&sheet_e(), &example) && request.c == [0, 63]
    });
    assert_eq!(rows.map(|row| row.1.code).collect::<Vec<_>>(), [16, 0, 0]);
}

#[test]
fn streams_of_sheets_with_no_free_position() {
    let mut one_record = BTreeSet::new();
    let mut records = BTreeSet::new();
    let mut checks = BTreeSet::new();
    let mut short = BTreeSet::new();
    for (request, answer, out) in answered(4) {
        let count = request.a.len() / RECORD_BYTES;
        if count == 0 || request.a.chunks(RECORD_BYTES).any(|record| record[0] != 1) {
            continue;
        }
        let n = count.ilog2();
        let bad = (request.a.chunks_exact(RECORD_BYTES).enumerate())
            .any(|(i, record)| !broken(i, 1 << n, record).is_empty());
        if answer.code == 16 {
            short.insert(n);
        } else if request.a.len() != RECORD_BYTES << n {
            assert_eq!(out[..ANSWER_BYTES], lone(11));
            one_record.insert((n, 11, request.b.is_empty()));
        } else if request.c.len() != 2 {
            assert_eq!(out[..ANSWER_BYTES], lone(13));
            one_record.insert((n, 13, request.b.is_empty()));
        } else {
            let words = request.b.len().div_ceil(1 << n);
            let first = if bad { 12 } else { 19 };
            for record in out[..ANSWER_BYTES * words].chunks(ANSWER_BYTES) {
                assert_eq!(numbers_of(record)[0], first);
                assert!(bad || record == lone(19));
            }
            records.insert((n, first, words, request.b.len().is_multiple_of(1 << n)));
            checks.insert((n, first, [0, 6, 11].contains(&request.c[0])));
        }
    }
    assert!(short.contains(&0) && short.contains(&3));
    for n in 0..7 {
        assert!(one_record.contains(&(n, 11, false)) && one_record.contains(&(n, 13, false)));
        assert!(one_record.contains(&(n, 13, true)));
        // one symbol cannot be cut off
        assert!(records.contains(&(n, 19, 3, n == 0)) && records.contains(&(n, 19, 0, true)));
        assert!(records.contains(&(n, 12, 3, n == 0)));
        assert!(checks.contains(&(n, 19, true)) && checks.contains(&(n, 19, false)));
    }
    for n in [7, 9] {
        assert!(records.contains(&(n, 19, 3, false)) && records.contains(&(n, 12, 3, false)));
        assert!(checks.contains(&(n, 19, true)) && checks.contains(&(n, 19, false)));
    }
}
