// What the words to decode must reach, alone and in streams: the rows of the bench, every verdict, the
// edges of the ceiling, and every verdict at the counts of unknowns next to a multiple of 64.

use crate::common::{numbers_of, sheet_e, symbols};
use crate::lists::{answered, choices, exponents, kinds_of_sheet, LONG, MOST};
use second::calls::{stream_numbers, ANSWER_BYTES};
use second::limits::{LARGEST_CEILING, LARGEST_EXPONENT, RECORD_BYTES};
use second::sheet::Sheet;
use std::collections::{BTreeMap, BTreeSet};

/// A word as it was decoded, alone or in a stream.
pub struct Decoded<'a> {
    pub n: usize,
    pub r: usize,
    pub sheet: &'a [u8],
    pub word: &'a [u8],
    pub numbers: [u16; 5],
}

/// Every word of the requests of decode and of the streams that got its verdict, or 18.
pub fn decoded() -> Vec<Decoded<'static>> {
    let mut list = Vec::new();
    for (request, answer, _) in answered(2) {
        list.push(Decoded {
            n: request.n.into(),
            r: request.r.into(),
            sheet: &request.a,
            word: &request.b,
            numbers: answer.numbers(),
        });
    }
    for (request, answer, out) in answered(4) {
        let Ok((n, r, _)) = stream_numbers(&request.a, &request.c) else {
            continue;
        };
        let words = request.b.chunks(1 << n);
        for (word, record) in words.zip(out.chunks_exact(ANSWER_BYTES)) {
            if answer.code == 0 {
                list.push(Decoded {
                    n,
                    r,
                    sheet: &request.a,
                    word,
                    numbers: numbers_of(record),
                });
            }
        }
    }
    list.retain(|decoded| [0, 1, 2, 18].contains(&decoded.numbers[0]));
    list
}

#[test]
fn bench_rows_are_decoded() {
    let mut check = vec![0; 8 * RECORD_BYTES];
    check[0] = 1;
    let mut refused = check.clone();
    refused[RECORD_BYTES] = 1;
    let mut frozen = vec![0; RECORD_BYTES];
    frozen[..2].copy_from_slice(&[1, 1]);
    let free = vec![0; RECORD_BYTES];
    let pair = vec![0; 2 * RECORD_BYTES];
    let e = sheet_e();
    for (sheet, r, ceiling, word, expected) in [
        (&e, 0, 63, "01111000", [0, 0, 0, 4, 0]),
        (&e, 0, 63, "22221000", [0, 0, 1, 1, 0]),
        (&e, 0, 63, "01112222", [0, 0, 1, 1, 0]),
        (&e, 0, 63, "21111000", [0, 0, 0, 3, 0]),
        (&e, 0, 63, "11111000", [2, 0, 0, 4, 0]),
        (&e, 0, 63, "02200220", [1, 0, 1, 1, 1]),
        (&e, 0, 63, "02211220", [1, 0, 1, 1, 1]),
        (&e, 0, 63, "12200220", [2, 0, 1, 1, 0]),
        (&e, 0, 63, "22222222", [1, 0, 4, 0, 4]),
        (&e, 0, 3, "22222222", [18, 0, 4, 0, 0]),
        (&e, 0, 4, "22222222", [1, 0, 4, 0, 4]),
        (&free, 0, 63, "2", [1, 0, 1, 0, 1]),
        (&frozen, 0, 63, "2", [19, 0, 0, 0, 0]),
        (&frozen, 0, 63, "0", [19, 0, 0, 0, 0]),
        (&pair, 0, 63, "22", [1, 0, 2, 0, 2]),
        (&check, 6, 63, "22222222", [1, 0, 7, 6, 1]),
        (&refused, 6, 63, "22222222", [13, 0, 0, 0, 0]),
    ] {
        let word = symbols(word);
        let found = answered(2).iter().find(|(request, ..)| {
            (&request.a, &request.b) == (sheet, &word)
                && (request.r, request.ceiling) == (r, ceiling)
        });
        let (_, answer, out) = found.unwrap_or_else(|| panic!("no row {word:?}"));
        assert_eq!(answer.numbers(), expected, "{word:?}");
        if (r, answer.code) == (6, 1) {
            assert_eq!(out, &symbols("211222220110001111111100"));
        }
    }
}

#[test]
fn verdicts_reach_what_they_must() {
    let mut verdicts: BTreeMap<(u16, u16, u16), usize> = BTreeMap::new();
    let mut kinds = BTreeSet::new();
    let mut dimensions = BTreeSet::new();
    let mut patterns: [BTreeSet<Vec<bool>>; LARGEST_EXPONENT + 1] = Default::default();
    let mut recovered = [0; LARGEST_EXPONENT + 1];
    let mut settled = 0;
    for (request, answer, out) in answered(2) {
        if answer.code > 2 {
            continue;
        }
        let n = usize::from(request.n);
        let sheet = Sheet::read(n, &request.a, request.r.into()).unwrap();
        let lost: Vec<bool> = request.b.iter().map(|&symbol| symbol == 2).collect();
        let losses = lost.iter().filter(|&&lost| lost).count();
        kinds.extend(
            kinds_of_sheet(&sheet)
                .into_iter()
                .map(|kind| (n, answer.code, kind)),
        );
        if answer.code < 2 {
            let open = out[..1 << n].iter().filter(|&&symbol| symbol == 2).count();
            recovered[n] += usize::from(answer.code == 0 && answer.g > 0);
            settled += usize::from(answer.code == 1 && open < losses);
            assert!(out[3 << n..].iter().all(|&byte| byte == 165));
        }
        patterns[n].insert(lost);
    }
    for decoded in decoded() {
        let key = (decoded.n as u16, decoded.r as u16, decoded.numbers[0]);
        *verdicts.entry(key).or_default() += 1;
        dimensions.insert(decoded.numbers[4]);
    }
    let between = [0, 6, 11].map(|r| (LONG + 1, r));
    for (n, r) in choices().into_iter().chain(between) {
        for code in 0..3 {
            let count = verdicts.get(&(n, r, code)).copied().unwrap_or(0);
            // one symbol is free and has no rule to break
            let (least, most) = match (n, code) {
                (0, 2) => (0, 0),
                (0, _) => (2, usize::MAX),
                (..4, _) => (10, usize::MAX),
                _ if exponents().contains(&n) => (3, usize::MAX),
                _ => (1, usize::MAX),
            };
            assert!(
                (least..=most).contains(&count),
                "n {n}, r {r}, code {code}: {count}"
            );
        }
    }
    let long = usize::from(LONG);
    assert_eq!(
        kinds.iter().filter(|&&(n, ..)| n < long).count(),
        2 + 6 * 3 * 5
    );
    let of_long: BTreeSet<_> = (kinds.iter().filter(|&&(n, ..)| n >= long))
        .map(|&(_, code, kind)| (code, kind))
        .collect();
    assert_eq!(of_long.len(), 3 * 5, "{of_long:?}");
    let wanted = (0..=12).chain([62, 63, 64, 65, 128, 192, 254, 255]);
    for d in wanted {
        assert!(dimensions.contains(&d), "{d}: {dimensions:?}");
    }
    for n in exponents().into_iter().map(usize::from) {
        let patterns = &patterns[n];
        assert!([true, false]
            .map(|lost| vec![lost; 1 << n])
            .iter()
            .all(|all| patterns.contains(all)));
        assert!(n > 3 || patterns.len() == 1 << (1 << n), "n {n}");
        let least = [0, 5, 50, 50, 50, 25, 10, 5, 5, 5][n];
        assert!(recovered[n] >= least, "n {n}: {recovered:?}");
    }
    assert!(settled > 300, "{settled}");
}

#[test]
fn ceilings_reach_their_edges() {
    let mut edges = BTreeSet::new();
    let mut largest = BTreeSet::new();
    for (request, answer, _) in answered(2) {
        match answer.code {
            17 => {
                edges.insert((request.n, 17, i32::from(request.ceiling)));
            }
            0..=2 | 18 => {
                let off = i32::from(request.ceiling) - i32::from(answer.g);
                edges.insert((request.n, if answer.code == 18 { 18 } else { 0 }, off));
                largest.insert((request.ceiling, answer.g, answer.code == 18));
            }
            _ => {}
        }
    }
    let most = LARGEST_CEILING as u16;
    for n in 0..=MOST {
        let mut wanted = vec![(17, i32::from(most) + 1), (18, -1), (0, 0)];
        if n < LONG {
            wanted.extend([(17, 65535), (0, 1)]);
        }
        for (code, off) in wanted {
            assert!(edges.contains(&(n, code, off)), "n {n}, {code}, {off}");
        }
    }
    for (ceiling, g) in [
        (0, 0),
        (0, 1),
        (most, most),
        (most, most + 1),
        (most, 1 << MOST),
    ] {
        assert!(
            largest.contains(&(ceiling, g, g > ceiling)),
            "{ceiling}, {g}"
        );
    }
}

/// The counts of unknowns on both sides of each multiple of 64, and at the ends.
fn borders() -> Vec<u16> {
    let mut list = vec![0, 1];
    for middle in [64, 128, 192] {
        list.extend(middle - 2..=middle + 2);
    }
    list.extend(LARGEST_CEILING as u16 - 3..=LARGEST_CEILING as u16);
    list
}

/// Whether a word of g unknowns can have this verdict: unique needs an equation for each, from the
/// symbols that were read, as many as the others, and the check; the check ties r unknowns; and no
/// symbol is left to contradict where all are lost.
fn possible(n: u16, r: u16, g: u16, verdict: u16) -> bool {
    match verdict {
        0 => 2 * g <= (1 << n) + r,
        1 => g > r,
        _ => g < 1 << n,
    }
}

#[test]
fn unknowns_on_both_sides_of_each_word() {
    let mut alone = BTreeSet::new();
    let mut streamed = BTreeSet::new();
    let mut at_g = BTreeSet::new();
    let mut refused = BTreeSet::new();
    for (request, answer, _) in answered(2) {
        match answer.code {
            0..=2 => {
                alone.insert((request.n, request.r, answer.g, answer.code));
                at_g.extend((request.ceiling == answer.g).then_some((request.n, answer.g)));
            }
            18 => {
                refused.insert((request.n, answer.g, request.ceiling));
            }
            _ => {}
        }
    }
    for decoded in decoded() {
        let [code, _, g, ..] = decoded.numbers;
        streamed.insert((decoded.n as u16, decoded.r as u16, g, code));
    }
    for n in LONG..=MOST {
        for g in borders().into_iter().filter(|&g| g <= 1 << n) {
            let near = [0, 63].contains(&(g % 64));
            let mut seen = 0;
            for code in 0..3 {
                for r in [0, 6, 11] {
                    if !possible(n, r, g, code) {
                        continue;
                    }
                    let has = alone.contains(&(n, r, g, code));
                    seen += usize::from(has);
                    // in the shortest of the long codes under every check length
                    assert!(has || !near || n > LONG, "n {n}, r {r}, g {g}, {code}");
                    // in streams of the longest at every count under every check length
                    let has = streamed.contains(&(n, r, g, code));
                    assert!(has || n < MOST, "stream, r {r}, g {g}, {code}");
                }
                let has = [0, 6, 11].iter().any(|&r| alone.contains(&(n, r, g, code)));
                let can = [0, 6, 11].iter().all(|&r| possible(n, r, g, code));
                assert!(has || !near || !can, "n {n}, g {g}, {code}");
            }
            assert!(seen > 0, "n {n}, g {g}");
            assert!(!near || at_g.contains(&(n, g)), "n {n}, g {g}");
            let edge = g > 0 && (g % 64 == 0 || usize::from(g) == LARGEST_CEILING);
            assert!(!edge || refused.contains(&(n, g, g - 1)), "n {n}, g {g}");
        }
    }
    let most = LARGEST_CEILING as u16;
    for (n, g) in [(LONG + 1, most + 1), (MOST, most + 1), (MOST, 1 << MOST)] {
        assert!(refused.contains(&(n, g, most)), "n {n}, g {g}");
    }
}
