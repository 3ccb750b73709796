// Whole strips: each lane held to the decoder of that lane alone, the refusals in their order, the view
// of one cartridge, and the obvious program, which says the same.

mod common;
use common::strips::{any_strip, lane_of, marks, repair, strip_of};
use common::{any_sheet, numbers, BEFORE};
use second::answer::Answer;
use second::calls;
use second::limits::{CARTRIDGE_BYTES, LANES, LARGEST_CEILING, RECORD_BYTES};
use second::obvious::{Obvious, Outcome};
use second::requests::Code;
use second::rng::Rng;
use second::strips::{first, lanes, record};
use std::collections::{BTreeMap, BTreeSet};

/// The word of lane t.
fn word(strip: &[u8], lost: &[u8], t: usize) -> Vec<u8> {
    (strip.chunks(CARTRIDGE_BYTES).zip(lost))
        .map(|(record, &mark)| if mark == 1 { 2 } else { lane_of(record, t) })
        .collect()
}

/// Other bytes in the records of the lost cartridges.
fn garbage(rng: &mut Rng, strip: &[u8], lost: &[u8]) -> Vec<u8> {
    let mut strip = strip.to_vec();
    for (record, _) in (strip.chunks_mut(CARTRIDGE_BYTES).zip(lost)).filter(|(_, &mark)| mark == 1)
    {
        record.fill_with(|| rng.below(256) as u8);
    }
    strip
}

/// The decoder's answer and settled strip of one lane alone.
fn alone(n: usize, sheet: &[u8], r: usize, ceiling: usize, word: &[u8]) -> (Answer, Vec<u8>) {
    let mut out = vec![BEFORE; 3 << n];
    let answer = calls::decode(n, sheet, r, ceiling, word, &mut out);
    out.truncate(1 << n);
    (answer, out)
}

/// Holds the answer to a strip to that of each of these lanes alone, and to the same strip with other
/// bytes in its lost records.
fn hold(
    rng: &mut Rng,
    (n, sheet, r): (usize, &[u8], usize),
    ceiling: usize,
    (strip, lost): (&[u8], &[u8]),
    those: &[usize],
) -> Answer {
    let (answer, out) = repair(n, sheet, r, ceiling, strip, lost);
    let other = garbage(rng, strip, lost);
    assert_eq!(
        repair(n, sheet, r, ceiling, &other, lost),
        (answer, out.clone())
    );
    let (records, marks) = out.split_at(CARTRIDGE_BYTES << n);
    let mut decoded: BTreeMap<Vec<u8>, (Answer, Vec<u8>)> = BTreeMap::new();
    for &t in those {
        let word = word(strip, lost, t);
        let (lane, settled) = decoded
            .entry(word.clone())
            .or_insert_with(|| alone(n, sheet, r, ceiling, &word));
        assert_eq!((lane.g, lane.m), (answer.g, answer.m));
        match answer.code {
            // the first lane that is inconsistent, and none before it
            2 if t == usize::from(answer.place) => assert_eq!(lane.code, 2),
            2 if t < usize::from(answer.place) => assert!(lane.code < 2, "lane {t}"),
            2 => {}
            18 => assert_eq!(*lane, answer),
            code => {
                assert!(code < 2 && *lane == answer, "{lane:?}, {answer:?}");
                let places = records.chunks(CARTRIDGE_BYTES).zip(marks);
                for ((record, &mark), &settled) in places.zip(settled.iter()) {
                    assert_eq!(mark, u8::from(settled == 2));
                    assert_eq!(lane_of(record, t), if settled == 2 { 0 } else { settled });
                }
                assert_eq!(code == 0, !marks.contains(&1));
            }
        }
    }
    answer
}

#[test]
fn lanes_and_records() {
    let mut rng = Rng::new(1);
    for t in 0..LANES {
        let mut one = vec![0; CARTRIDGE_BYTES];
        one[t / 8] = 1 << (t % 8);
        let of_one = lanes(&one);
        assert_eq!(of_one[t / 64], 1 << (t % 64));
        assert_eq!(first(&of_one), Some(t));
        assert_eq!(record(&of_one), one);
    }
    let any: Vec<u8> = (0..CARTRIDGE_BYTES).map(|_| rng.below(256) as u8).collect();
    assert_eq!(record(&lanes(&any)), any);
    assert_eq!(first(&lanes(&[0; CARTRIDGE_BYTES])), None);
}

#[test]
fn every_lane_is_the_decoders_up_to_32() {
    let mut rng = Rng::new(2);
    let every: Vec<usize> = (0..LANES).collect();
    let mut seen: BTreeMap<u16, usize> = BTreeMap::new();
    let mut settled_losses = 0;
    for n in 0..=5 {
        let checks = [0, 6, 11].into_iter().filter(|&r| r < 1 << n);
        for r in checks {
            for round in 0..[20, 30, 30, 9, 24, 18][n] {
                let (sheet, _) = any_sheet(&mut rng, n, r);
                let spoilt = [0, 0, 1, 3][round % 4];
                let strip = any_strip(&mut rng, n, &sheet, r, spoilt);
                let lost = marks(&mut rng, 1 << n, [0, 1, 2, 3, 4, 6, 8][round % 7]);
                let ceiling = match rng.below(6) {
                    0 => rng.below(1 << n),
                    _ => LARGEST_CEILING,
                };
                let answer = hold(&mut rng, (n, &sheet, r), ceiling, (&strip, &lost), &every);
                *seen.entry(answer.code).or_default() += 1;
                settled_losses += usize::from(answer.code == 0 && lost.contains(&1));
            }
        }
    }
    assert!([0, 1, 2, 18].iter().all(|code| seen[code] > 8), "{seen:?}");
    assert!(settled_losses > 10, "{settled_losses}");
}

#[test]
fn lanes_are_the_decoders_in_long_strips() {
    let mut rng = Rng::new(3);
    let mut seen: BTreeMap<u16, usize> = BTreeMap::new();
    for (n, r, k, losses, all) in [
        (6, 0, 30, 2, false),
        (6, 6, 40, 3, false),
        (6, 11, 45, 4, false),
        (7, 11, 64, 2, true),
        (7, 0, 64, 4, false),
        (7, 6, 100, 1, false),
        (8, 6, 128, 2, false),
        (8, 11, 200, 3, false),
        (9, 11, 256, 2, false),
        (9, 0, 200, 4, false),
    ] {
        let code = Code::weighted(&mut rng, n, r, k);
        let strip = any_strip(&mut rng, n, &code.sheet, r, 0);
        let lost = marks(&mut rng, 1 << n, losses);
        let those: Vec<usize> = match all {
            true => (0..LANES).collect(),
            false => vec![0, 63, 64, rng.below(LANES), LANES - 1],
        };
        let of = (n, &code.sheet[..], r);
        let ceiling = LARGEST_CEILING;
        let sound = hold(&mut rng, of, ceiling, (&strip, &lost), &those);
        assert!(sound.code < 2, "{sound:?}");
        // a read symbol turned over in one lane, and in a later one too
        let t = rng.pick(&those[1..]);
        let mut spoilt = strip.clone();
        let read: Vec<usize> = (0..1 << n).filter(|&j| lost[j] == 0).collect();
        spoilt[CARTRIDGE_BYTES * rng.pick(&read) + t / 8] ^= 1 << (t % 8);
        spoilt[CARTRIDGE_BYTES * rng.pick(&read) + 63] ^= 128;
        let answer = hold(&mut rng, of, ceiling, (&spoilt, &lost), &those);
        let first = (those.iter()).find(|&&t| {
            let word = word(&spoilt, &lost, t);
            alone(n, &code.sheet, r, ceiling, &word).0.code == 2
        });
        match first {
            Some(&first) => {
                assert_eq!((answer.code, usize::from(answer.place)), (2, first));
                assert_eq!((answer.g, answer.m, answer.d), (sound.g, sound.m, 0));
            }
            None => assert!(answer == sound),
        }
        for answer in [sound, answer] {
            *seen.entry(answer.code).or_default() += 1;
        }
    }
    assert!(seen[&0] > 3 && seen[&1] > 1 && seen[&2] > 5, "{seen:?}");
}

#[test]
fn the_bench_code_by_hand() {
    // u_0 = u_1 = u_2 = 0 and u_4 = u_3; 01111000 is a codeword and 02200220 has two
    let code = Code::bench();
    let mut words = vec![vec![0; 8]; LANES];
    words[9] = vec![0, 1, 1, 1, 1, 0, 0, 0];
    let strip = strip_of(&words);
    let repair = |strip: &[u8], lost: &[u8]| repair(3, &code.sheet, 0, 63, strip, lost);
    let (answer, out) = repair(&strip, &[1, 1, 1, 1, 0, 0, 0, 0]);
    assert_eq!(answer, numbers(0, 0, 1, 1, 0));
    assert_eq!(out, [&strip[..], &[0; 8]].concat());
    for (j, record) in out.chunks(CARTRIDGE_BYTES).take(8).enumerate() {
        let expected = u8::from((1..=4).contains(&j)) << 1;
        assert_eq!((record[1], record[0]), (expected, 0));
    }
    let (answer, out) = repair(&strip, &[0, 1, 1, 0, 0, 1, 1, 0]);
    assert_eq!(answer, numbers(1, 0, 1, 1, 1));
    let mut expected = vec![0; 8 * CARTRIDGE_BYTES];
    for j in [3, 4] {
        expected[CARTRIDGE_BYTES * j + 1] = 2;
    }
    expected.extend([0, 1, 1, 0, 0, 1, 1, 0]);
    assert_eq!(out, expected);
    // lane 300 is 12200220, and lane 400 too
    words[300][0] = 1;
    words[400][0] = 1;
    let (answer, _) = repair(&strip_of(&words), &[0, 1, 1, 0, 0, 1, 1, 0]);
    assert_eq!(answer, numbers(2, 300, 1, 1, 0));
    // the spoilt symbol is lost
    let (answer, _) = repair(&strip_of(&words), &[1, 0, 0, 0, 0, 0, 0, 0]);
    assert_eq!(answer, numbers(0, 0, 0, 3, 0));
}

#[test]
fn refusals_in_their_order() {
    let code = Code::bench();
    let n = 3;
    let strip = vec![0; 8 * CARTRIDGE_BYTES];
    let lost = vec![1; 8];
    let mut bad = code.sheet.clone();
    bad[5 * RECORD_BYTES + 2] = 1;
    let mut frozen = code.sheet.clone();
    for i in 0..8 {
        frozen[RECORD_BYTES * i] = 1;
    }
    let mut marked = lost.clone();
    marked[6] = 2;
    marked[7] = 255;
    let room = 65 * 8;
    let answer = |n, sheet: &[u8], r, ceiling, strip: &[u8], lost: &[u8], o| {
        let mut out = vec![BEFORE; o];
        let answer = calls::repair(n, sheet, r, ceiling, strip, lost, &mut out);
        assert!(answer.code < 2 || out.iter().all(|&byte| byte == BEFORE));
        answer
    };
    let wrong: [(&[u8], &[u8]); 4] = [
        (&strip[1..], &lost),
        (&strip, &lost[1..]),
        (&[&strip[..], &[0]].concat(), &marked),
        (&strip, &[&marked[..], &[0]].concat()),
    ];
    for (strip, lost) in wrong {
        assert_eq!(
            answer(n, &bad[1..], 5, 256, strip, lost, 0),
            Answer::code(11)
        );
        assert_eq!(answer(10, &bad, 5, 256, strip, lost, 0), Answer::code(11));
        assert_eq!(answer(n, &bad, 5, 256, strip, lost, 0), Answer::at(12, 5));
        assert_eq!(answer(n, &frozen, 5, 256, strip, lost, 0), Answer::code(19));
        assert_eq!(
            answer(n, &code.sheet, 5, 256, strip, lost, 0),
            Answer::code(13)
        );
        assert_eq!(
            answer(n, &code.sheet, 6, 256, strip, lost, 0),
            Answer::code(13)
        );
        assert_eq!(
            answer(n, &code.sheet, 0, 256, strip, lost, 0),
            Answer::code(14)
        );
    }
    let good = |ceiling, lost: &[u8], o| answer(n, &code.sheet, 0, ceiling, &strip, lost, o);
    assert_eq!(good(256, &marked, 0), Answer::at(15, 6));
    assert_eq!(good(256, &lost, room - 1), Answer::code(16));
    assert_eq!(good(256, &lost, room), Answer::code(17));
    assert_eq!(good(3, &lost, room), Answer::counted(18, 4, 0, 0));
    assert_eq!(good(4, &lost, room), numbers(1, 0, 4, 0, 4));
}

#[test]
fn a_view_is_one_record_or_empty() {
    let mut rng = Rng::new(4);
    for n in 0..=9 {
        let length = 1 << n;
        let strip: Vec<u8> = (0..CARTRIDGE_BYTES * length)
            .map(|_| rng.below(256) as u8)
            .collect();
        for position in 0..length {
            let view = calls::view(n, &strip, position);
            assert_eq!(view, &strip[64 * position..64 * position + 64]);
        }
        for position in [length, length + 1, 65535, usize::MAX] {
            assert_eq!(calls::view(n, &strip, position), &[0; 0]);
        }
        assert!(calls::view(n, &strip[1..], 0).is_empty());
        assert!(calls::view(n, &[&strip[..], &[0]].concat(), 0).is_empty());
        assert!(n == 0 || calls::view(n - 1, &strip, 0).is_empty());
        assert!(calls::view(n + 1, &strip, 0).is_empty());
    }
    for n in [10, 65, 65535] {
        assert!(calls::view(n, &[], 0).is_empty());
        assert!(calls::view(n, &vec![0; CARTRIDGE_BYTES << 10], 0).is_empty());
    }
}

/// Holds the obvious program to the call, under the largest ceiling.
fn hold_obvious<const W: usize>(rng: &mut Rng, n: usize, seen: &mut BTreeSet<u16>) {
    for r in [0, 6, 11].into_iter().filter(|&r| r < 1 << n) {
        for round in 0..if n < 8 { 24 } else { 7 } {
            let (sheet, k) = match round % 3 {
                0 => {
                    let (sheet, read) = any_sheet(rng, n, r);
                    (sheet, read.k())
                }
                _ => {
                    let k = rng.within(r + 1, r + ((1 << n) - r).div_ceil(2));
                    (Code::weighted(rng, n, r, k).sheet, k)
                }
            };
            let mut obvious = Obvious::<W>::new(n, &sheet, r).ok().unwrap();
            // several strips by the same checks
            for spoilt in [0, 1, 0, 2] {
                let strip = any_strip(rng, n, &sheet, r, spoilt);
                let most = rng.pick(&[4, 9]);
                let losses = rng.below(most);
                let lost = marks(rng, 1 << n, losses);
                let (answer, out) = repair(n, &sheet, r, LARGEST_CEILING, &strip, &lost);
                if answer.code == 18 {
                    continue;
                }
                let mut theirs = vec![BEFORE; out.len() + 3];
                let outcome = obvious.repair(&strip, &lost, &mut theirs);
                let Answer { code, place, d, .. } = answer;
                let (place, d) = (place.into(), d.into());
                assert_eq!(outcome, Outcome { code, place, d }, "n {n}, r {r}, K {k}");
                assert_eq!(theirs.split_off(out.len()), [BEFORE; 3]);
                assert_eq!(theirs, out);
                seen.insert(code);
            }
        }
    }
}

#[test]
fn the_obvious_program_says_the_same() {
    let mut rng = Rng::new(6);
    for n in 0..=9 {
        let mut seen = BTreeSet::new();
        match n {
            ..=6 => hold_obvious::<1>(&mut rng, n, &mut seen),
            7 => hold_obvious::<2>(&mut rng, n, &mut seen),
            8 => hold_obvious::<4>(&mut rng, n, &mut seen),
            _ => hold_obvious::<8>(&mut rng, n, &mut seen),
        }
        assert!(n < 3 || seen.len() == 3, "n {n}: {seen:?}");
    }
    assert!(Obvious::<1>::new(0, &[], 0).is_err());
}
