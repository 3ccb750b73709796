// What the payloads of encode and the words of read-back must reach, and the words of zeros of every
// call that takes words.

use crate::lists::{answered, choices, exponents, kept, kinds_of_sheet, LONG, MOST};
use second::limits::RECORD_BYTES;
use second::protocol::Request;
use second::sheet::Sheet;
use std::collections::BTreeSet;

#[test]
fn payloads_reach_what_they_must() {
    let mut good = BTreeSet::new();
    let mut kinds = BTreeSet::new();
    let mut empty = BTreeSet::new();
    for (request, answer, out) in answered(1) {
        assert_eq!([answer.g, answer.m, answer.d], [0; 3]);
        if answer.code == 0 {
            let (word, rest) = out.split_at(1 << request.n);
            assert!(word.iter().all(|&symbol| symbol <= 1));
            assert!(rest.iter().all(|&byte| byte == 165));
            let sheet = Sheet::read(request.n.into(), &request.a, request.r.into()).unwrap();
            good.insert((request.n, request.r));
            kinds.extend(
                kinds_of_sheet(&sheet)
                    .into_iter()
                    .map(|kind| (request.n, kind)),
            );
        }
        if request.b.is_empty() {
            empty.insert((request.n, request.r, answer.code));
        }
    }
    let between = [0, 6, 11].map(|r| (LONG + 1, r));
    assert_eq!(good, choices().into_iter().chain(between).collect());
    // one symbol is free
    let of_short = kinds.iter().filter(|&&(n, _)| n < LONG).count();
    assert_eq!(of_short, 1 + 6 * 5);
    let of_long: BTreeSet<u8> = (kinds.iter().filter(|&&(n, _)| n >= LONG))
        .map(|&(_, kind)| kind)
        .collect();
    assert_eq!(of_long.len(), 5);
    for n in exponents() {
        let too_short = [0, 6, 11].iter().any(|&r| empty.contains(&(n, r, 14)));
        assert!(n >= LONG || too_short, "n {n}");
        let checks = if n < 6 { &[0, 6, 11, 5][..] } else { &[0] };
        for &r in checks {
            assert!(empty.contains(&(n, r, 19)), "n {n}, r {r}");
        }
        for r in [6, 11].into_iter().filter(|&r| r <= 1 << n && n < LONG) {
            assert!(empty.contains(&(n, r, 13)), "n {n}, r {r}");
        }
    }
}

#[test]
fn words_read_back_reach_what_they_must() {
    let mut seen = BTreeSet::new();
    let mut zero = BTreeSet::new();
    for (request, answer, out) in answered(3) {
        assert_eq!([answer.g, answer.m, answer.d], [0; 3]);
        if answer.code > 2 {
            continue;
        }
        let [n, r] = [request.n, request.r].map(usize::from);
        let sheet = Sheet::read(n, &request.a, r).unwrap();
        let kept = kept(&sheet, r, &request.b);
        assert_eq!(answer.code == 0, kept == (true, true));
        let written = if answer.code == 0 { sheet.k() - r } else { 0 };
        assert!(out[..written].iter().all(|&bit| bit <= 1));
        assert!(out[written..].iter().all(|&byte| byte == 165));
        seen.insert((request.n, request.r, kept));
        if request.b.iter().all(|&symbol| symbol == 0) {
            zero.insert((request.n, answer.code));
        }
    }
    for (n, r) in choices() {
        for kept in [(true, true), (false, true), (true, false), (false, false)] {
            // one symbol is free and has no rule to break
            let possible = (r > 0 || kept.1) && (n > 0 || kept.0);
            assert_eq!(
                seen.contains(&(n, r, kept)),
                possible,
                "n {n}, r {r}, {kept:?}"
            );
        }
    }
    let of_short = zero.iter().filter(|&&(n, _)| n < LONG);
    assert_eq!(of_short.count(), 1 + 6 * 2);
}

#[test]
fn zeros_reach_what_they_must() {
    let no_constant =
        |request: &Request| request.a.chunks(RECORD_BYTES).all(|record| record[1] == 0);
    // payloads of zeros, and such as begin with a zero and have a one
    let mut payloads = BTreeSet::new();
    for (request, ..) in answered(1).iter().filter(|(_, answer, _)| answer.code == 0) {
        let zero = !request.b.contains(&1);
        if zero || request.b[0] == 0 {
            payloads.insert((request.n, request.r, zero));
        }
    }
    // words of which every symbol that was read is 0, by whether any is lost
    let mut words = BTreeSet::new();
    for op in [2, 3] {
        for (request, answer, _) in answered(op) {
            if answer.code <= 2 && no_constant(request) && !request.b.contains(&1) {
                let lost = request.b.contains(&2);
                words.insert((op, request.n, request.r, lost, answer.code));
            }
        }
    }
    for (n, r) in choices() {
        // one bit of payload is all there is in one symbol; of long codes one kind is enough
        let seen = [true, false].map(|zero| payloads.contains(&(n, r, zero)));
        let expected = match n {
            0 => [true, false],
            LONG.. if r == 0 || seen[0] => seen,
            LONG.. => [false, true],
            _ => [true, true],
        };
        assert_eq!(seen, expected, "n {n}, r {r}");
        if n >= LONG {
            continue;
        }
        for op in [2, 3] {
            let whole = |code| words.contains(&(op, n, r, false, code));
            assert_eq!([0, 1, 2].map(whole), [r == 0, false, r > 0], "n {n}, r {r}");
        }
        let damaged = |code| words.contains(&(2, n, r, true, code));
        assert!(r == 0 || damaged(2), "n {n}, r {r}");
    }
    for n in [LONG, MOST] {
        assert!(words.contains(&(2, n, 0, false, 0)), "n {n}");
    }
}
