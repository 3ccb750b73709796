// What the whole strips must reach: every answer, the lanes that tell, and every border; that what lost
// records hold does not matter; and the views of one cartridge.

use crate::lists::{answered, length_of, Answered, LONG, MOST};
use second::answer::{Answer, ORDER};
use second::limits::{LANES, LARGEST_CEILING};
use std::collections::{BTreeMap, BTreeSet};

/// The lanes at the edges of bytes and of words of 64 bits.
const TELLING_LANES: [u16; 14] = [0, 1, 7, 8, 9, 63, 64, 65, 127, 128, 255, 256, 448, 511];

#[test]
fn strips_reach_what_they_must() {
    let mut codes = BTreeSet::new();
    let mut checked = BTreeSet::new();
    let mut lanes = BTreeSet::new();
    let mut kinds = BTreeSet::new();
    let mut unknowns = BTreeSet::new();
    let mut losses = BTreeSet::new();
    for (request, answer, out) in answered(7) {
        let (n, length) = (request.n % 64, length_of(request));
        codes.insert((n, answer.code));
        let written = if answer.code < 2 { 65 * length } else { 0 };
        assert!(out[written..].iter().all(|&byte| byte == 165));
        let lost = request.c.iter().filter(|&&mark| mark == 1).count();
        match answer.code {
            2 => {
                assert_eq!(answer.d, 0);
                lanes.insert((n, answer.place));
            }
            18 => assert_eq!(answer, &Answer::counted(18, answer.g.into(), 0, 0)),
            12 | 15 => assert_eq!(answer, &Answer::at(answer.code, answer.place.into())),
            11.. => assert_eq!(answer, &Answer::code(answer.code)),
            _ => {}
        }
        if answer.code > 2 {
            continue;
        }
        checked.insert((n, request.r, answer.code));
        unknowns.insert((n, answer.g, answer.code));
        if answer.code == 2 {
            continue;
        }
        losses.insert((n, lost == 0, lost == length));
        assert_eq!((answer.place, answer.code == 0), (0, answer.d == 0));
        let (records, marks) = out.split_at(64 * length);
        assert_eq!(answer.code == 1, marks[..length].contains(&1));
        for (j, record) in records.chunks(64).enumerate() {
            let theirs = &request.b[64 * j..][..64];
            match (request.c[j], marks[j]) {
                (0, mark) => assert!(mark == 0 && record == theirs),
                (_, 0) => {
                    // what a lost record held is not what it is filled with
                    kinds.insert((n, "settled"));
                    kinds.extend((record != theirs).then_some((n, "garbage")));
                }
                (_, mark) => {
                    assert!(mark == 1 && record == [0; 64]);
                    kinds.insert((n, "unsettled"));
                }
            }
        }
    }
    for n in 0..=MOST {
        for code in [0, 1, 2].into_iter().chain(ORDER) {
            // one symbol has no rule to break
            let possible = (n, code) != (0, 2);
            assert_eq!(codes.contains(&(n, code)), possible, "n {n}, {code}");
            for r in [0, 6, 11].into_iter().filter(|&r| code < 3 && r < 1 << n) {
                assert!(
                    n > 5 || !possible || checked.contains(&(n, r, code)),
                    "n {n}, r {r}, {code}"
                );
            }
        }
        for kind in ["settled", "garbage", "unsettled"] {
            // the one symbol is free
            let possible = n > 0 || kind == "unsettled";
            assert_eq!(kinds.contains(&(n, kind)), possible, "n {n}: {kind}");
        }
        for lane in TELLING_LANES {
            assert!(
                ![1, 2, 3].contains(&n) || lanes.contains(&(n, lane)),
                "n {n}, lane {lane}"
            );
        }
        assert!(
            n > 6 || losses.contains(&(n, true, false)),
            "n {n}: nothing lost"
        );
        assert!(
            n > 6 || losses.contains(&(n, false, true)),
            "n {n}: all lost"
        );
    }
    for lane in [0, 7, 8, 63, 64, 511] {
        assert!((4..=5).any(|n| lanes.contains(&(n, lane))), "lane {lane}");
    }
    assert!((6..=MOST).any(|n| lanes.range((n, 320)..(n, LANES as u16)).next().is_some()));
    for (n, g) in [
        (7, 63),
        (7, 64),
        (7, 65),
        (8, 127),
        (8, 128),
        (8, 191),
        (8, 192),
    ] {
        assert!(
            (0..3).any(|code| unknowns.contains(&(n, g, code))),
            "n {n}, g {g}"
        );
    }
    for (g, code) in [(64, 2), (192, 1), (255, 0)] {
        assert!(unknowns.contains(&(MOST, g, code)), "g {g}");
    }
}

/// Sheet, marks, and the strip with zeros in its lost records.
type Read<'a> = (&'a [u8], &'a [u8], Vec<u8>);

#[test]
fn strips_are_held_to_their_borders() {
    let mut lengths = BTreeSet::new();
    let mut bad_marks = BTreeSet::new();
    let mut rooms = BTreeSet::new();
    let mut ceilings = BTreeSet::new();
    let mut garbage: BTreeMap<Read, BTreeMap<&[u8], &Answered>> = BTreeMap::new();
    for answered in answered(7) {
        let (request, answer, _) = answered;
        let (n, length) = (request.n, 1 << request.n.min(MOST));
        let off = |bytes: usize, right: usize| bytes as isize - right as isize;
        let ceiling = request.ceiling as isize;
        match answer.code {
            14 => {
                let offs = (
                    off(request.b.len(), 64 * length),
                    off(request.c.len(), length),
                );
                lengths.insert((n, offs.0, offs.1));
            }
            15 => {
                bad_marks.insert((n, answer.place, request.c[usize::from(answer.place)]));
            }
            16 => {
                rooms.insert((n, off(request.o, 65 * length)));
            }
            17 => {
                ceilings.insert((n, "largest", ceiling - LARGEST_CEILING as isize));
            }
            0 | 1 | 2 | 18 => {
                let about_g = ceiling - answer.g as isize;
                ceilings.insert((n, "g", about_g));
                assert_eq!(about_g < 0, answer.code == 18);
                if answer.code != 18 {
                    rooms.insert((n, off(request.o, 65 * length)));
                    ceilings.insert((n, "largest", ceiling - LARGEST_CEILING as isize));
                }
            }
            _ => {}
        }
        if answer.code < 2 && request.c.contains(&1) {
            let mut read = request.b.clone();
            for (record, _) in (read.chunks_mut(64).zip(&request.c)).filter(|(_, &mark)| mark == 1)
            {
                record.fill(0);
            }
            let same = garbage.entry((&request.a, &request.c, read)).or_default();
            same.insert(&request.b, answered);
        }
    }
    for n in 0..=MOST {
        let last = (1 << n) - 1;
        let each = n < 6;
        for offs in [(-1, 0), (1, 0), (0, -1), (0, 1)] {
            assert!(
                !each || lengths.contains(&(n, offs.0, offs.1)),
                "n {n}, {offs:?}"
            );
        }
        let one_off =
            |&(m, strip, marks): &(u16, isize, isize)| m == n && strip.abs() + marks.abs() == 1;
        assert!(lengths.iter().any(one_off), "n {n}");
        for place in [0, (1 << n) / 2, last] {
            for value in [2, 255] {
                assert!(
                    !each || bad_marks.contains(&(n, place, value)),
                    "n {n}, {place}"
                );
            }
        }
        assert!(bad_marks.contains(&(n, last, 2)), "n {n}");
        for off in [-1, 0, 1] {
            assert!(
                (n > LONG && off == 1) || rooms.contains(&(n, off)),
                "n {n}, room {off}"
            );
        }
        assert!(ceilings.contains(&(n, "largest", 1)), "n {n}");
        assert!(ceilings.contains(&(n, "largest", 0)), "n {n}");
        for about in [-1, 0, 1] {
            assert!(
                !each || ceilings.contains(&(n, "g", about)),
                "n {n}, {about}"
            );
        }
    }
    // strips that differ in what lost records hold are repaired to the same bytes
    let mut seen = BTreeSet::new();
    for same in garbage.values().filter(|same| same.len() >= 4) {
        let outs: BTreeSet<&[u8]> = (same.values())
            .map(|(request, _, out)| &out[..65 * length_of(request)])
            .collect();
        let answers: BTreeSet<[u16; 5]> = same.values().map(|found| found.1.numbers()).collect();
        let (request, ..) = same.values().next().unwrap();
        if outs.len() == 1 && answers.len() == 1 {
            seen.insert(request.n);
        }
    }
    assert!((0..6).all(|n| seen.contains(&n)), "{seen:?}");
}

#[test]
fn views_reach_what_they_must() {
    let mut positions = BTreeSet::new();
    let mut outputs = BTreeSet::new();
    let mut lengths = BTreeSet::new();
    let mut large = BTreeSet::new();
    for (request, answer, out) in answered(8) {
        let (n, position) = (request.n, usize::from(request.r));
        let right = n <= MOST && request.a.len() == 64 << n && position < 1 << n;
        let size = if right { 64 } else { 0 };
        assert_eq!(answer, &Answer::at(0, size));
        let shown = size.min(out.len());
        assert!(out[shown..].iter().all(|&byte| byte == 165));
        if n > MOST {
            large.insert(n);
            continue;
        }
        let off = request.a.len() as isize - (64 << n) as isize;
        lengths.insert((n, off));
        if off == 0 {
            positions.insert((n, position));
            outputs.insert((n, right, request.o));
        }
        if right {
            assert_eq!(out[..shown], request.a[64 * position..][..shown]);
            assert!(request
                .a
                .iter()
                .any(|&byte| byte != request.a[64 * position]));
        }
    }
    for n in 0..=MOST {
        for position in [0, (1 << n) - 1, 1 << n] {
            assert!(positions.contains(&(n, position)), "n {n}, {position}");
        }
        assert!(
            lengths.contains(&(n, -1)) && (n > 7 || lengths.contains(&(n, 1))),
            "n {n}"
        );
        assert!(
            outputs.contains(&(n, true, 64)) && outputs.contains(&(n, false, 64)),
            "n {n}"
        );
        assert!(n > 7 || outputs.contains(&(n, true, 63)), "n {n}");
        for o in [0, 1, 63, 65] {
            let both = [true, false].map(|right| outputs.contains(&(n, right, o)));
            assert!(n > 4 || both == [true; 2], "n {n}, o {o}");
        }
    }
    for n in [10, 64, 255, 256, 65535] {
        assert!(large.contains(&n), "{n}");
    }
}
