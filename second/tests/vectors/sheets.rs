// What the sheets must reach: every rule that a record can break, at every place that tells, and every
// bit of the longest mask deciding both ways.

use crate::common::u_of;
use crate::lists::{answered, broken, exponents, telling_places, LONG, MOST};
use second::limits::{MASK_BYTES, RECORD_BYTES};
use second::sheet::Sheet;
use std::collections::{BTreeMap, BTreeSet};

#[test]
fn sheets_reach_what_they_must() {
    let list = answered(0);
    let mut good = BTreeSet::new();
    let mut kinds: BTreeMap<(u16, u16), BTreeSet<u8>> = BTreeMap::new();
    let mut bits = BTreeSet::new();
    let mut buffers = 0;
    for (request, answer, out) in list {
        assert!(out.iter().all(|&byte| byte == 165));
        buffers += usize::from(!out.is_empty());
        match answer.code {
            0 => {
                good.insert((request.n, request.r));
            }
            12 => {
                let place = usize::from(answer.place);
                let record = &request.a[RECORD_BYTES * place..][..RECORD_BYTES];
                let broken = broken(place, 1 << request.n, record);
                assert!(!broken.is_empty());
                if broken.len() == 1 {
                    kinds
                        .entry((request.n, answer.place))
                        .or_default()
                        .extend(broken);
                }
                bits.extend((0..8 * MASK_BYTES).filter(|j| record[4 + j / 8] >> (j % 8) & 1 == 1));
            }
            _ => {}
        }
    }
    for n in exponents() {
        for r in [0, 6, 11] {
            let possible = r < 1 << n;
            assert_eq!(good.contains(&(n, r)), possible, "good, n {n}, r {r}");
        }
    }
    let mut of_long = BTreeSet::new();
    for n in 0..=MOST {
        let (places, least): (Vec<u16>, usize) = match n {
            0..6 => ((0..1 << n).collect(), 2),
            6 => ((0..1 << n).collect(), 1),
            _ => (telling_places(n).to_vec(), 1),
        };
        let mut all = BTreeSet::new();
        for place in places {
            let seen = kinds.get(&(n, place)).cloned().unwrap_or_default();
            assert!(seen.len() >= least, "n {n}, place {place}: {seen:?}");
            all.extend(seen);
        }
        if n < LONG {
            // N = 1 has no later position
            let expected: BTreeSet<u8> = (0..9).filter(|&rule| (n, rule) != (0, 7)).collect();
            assert_eq!(all, expected, "n {n}");
        } else {
            let itself = (0..1 << n).any(|i| kinds.get(&(n, i)).is_some_and(|k| k.contains(&6)));
            assert!(itself, "n {n}: a record names itself");
            of_long.extend(all);
        }
    }
    assert!(
        (0..6).chain([7, 8]).all(|rule| of_long.contains(&rule)),
        "{of_long:?}"
    );
    assert_eq!(bits.len(), 8 * MASK_BYTES);
    assert!(buffers > 200 && buffers < list.len() / 4);
}

/// For each bit that a record of the longest sheet names alone, and that one names all but, whether
/// it is 1 in a word that is kept: so the bit decides.
fn deciding_bits(op: u16) -> [BTreeSet<usize>; 2] {
    let mut seen: [BTreeSet<usize>; 2] = Default::default();
    for (request, answer, out) in answered(op) {
        if answer.code != 0 || request.n != MOST {
            continue;
        }
        let word = if op == 1 { out } else { &request.b };
        if word[..1 << MOST].contains(&2) {
            continue;
        }
        let sheet = Sheet::read(request.n.into(), &request.a, request.r.into()).unwrap();
        let u = u_of(&word[..1 << MOST]);
        for (i, record) in sheet.records.iter().enumerate().filter(|(_, r)| r.frozen) {
            if let &[j] = &record.named[..] {
                seen[0].extend(u[j].then_some(j));
            }
            if record.named.len() + 1 == i {
                let other = (0..i).find(|j| !record.named.contains(j));
                seen[1].extend(other.filter(|&j| u[j]));
            }
        }
    }
    seen
}

#[test]
fn every_bit_of_a_mask_decides() {
    for op in 1..=3 {
        let [named, not_named] = deciding_bits(op);
        for j in 0..(1 << MOST) - 1 {
            assert!(named.contains(&j), "op {op}: {j} named");
            assert!(not_named.contains(&j), "op {op}: {j} not named");
        }
    }
}
