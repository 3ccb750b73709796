// The refusals of the calls of words: every set of faults is refused by the first in the fixed order with
// the output as found, and sheets, records and ceilings at their edges.

mod common;
use common::{decode, numbers, untouched, BEFORE};
use second::answer::{Answer, OF_CODEC, OF_SHEET, ORDER};
use second::calls;
use second::limits::{LARGEST_CEILING, LARGEST_EXPONENT, MASK_BYTES, RECORD_BYTES};
use second::make::{any_codeword, bits, bytes, every_sheet, good, only_word, STYLES};
use second::rng::Rng;
use second::sheet::Sheet;

/// The faults of a call as a set, in the order of the refusals: whether the one with this code is
/// in it.
fn has(set: usize, code: u16) -> bool {
    let at = ORDER.iter().position(|&other| other == code);
    set >> at.expect("a refusal") & 1 == 1
}

/// The first refusal of a set of faults.
fn first(set: usize) -> Option<u16> {
    ORDER.into_iter().find(|&code| has(set, code))
}

/// Whether none of the faults is one of the sheet.
fn sheet_is_good(set: usize) -> bool {
    !ORDER[..OF_SHEET].iter().any(|&code| has(set, code))
}

/// K of the sheets with faults, above the largest ceiling, so that all lost is too many.
const K: usize = LARGEST_CEILING + 45;

/// N of the sheets with faults.
const N: usize = 1 << LARGEST_EXPONENT;

/// The sheet, n and r with the faults 11, 12, 19 and 13 of the set. Places are above 255.
fn faulty_sheet(rng: &mut Rng, set: usize) -> (usize, Vec<u8>, usize) {
    let (k, r) = match (has(set, 19), has(set, 13)) {
        (false, false) => (K, 11),
        (false, true) => (11, 11),
        (true, false) => (0, 0),
        (true, true) => (0, rng.pick(&[6, 11, 5, 65535])),
    };
    let mut sheet = good(rng, N, k, STYLES[3]);
    if has(set, 12) {
        sheet[RECORD_BYTES * 300 + 3] = 1;
        sheet[RECORD_BYTES * 400 + 1] = 2;
    }
    if has(set, 11) {
        sheet.pop();
    }
    (LARGEST_EXPONENT, sheet, r)
}

/// A good vector with the faults 14 and 15 of the set.
fn faulty_form(mut vector: Vec<u8>, set: usize, bad: u8) -> Vec<u8> {
    if has(set, 15) {
        vector[260] = bad;
        vector[270] = 255;
    }
    if has(set, 14) {
        vector.push(0);
    }
    vector
}

/// What a refusal answers: the places of 12 and 15 are those put in above.
fn refusal(code: u16, g: u16) -> Answer {
    match code {
        12 => Answer::at(12, 300),
        15 => Answer::at(15, 260),
        18 => numbers(18, 0, g, 0, 0),
        code => Answer::code(code),
    }
}

fn buffer(needed: usize, set: usize) -> Vec<u8> {
    vec![BEFORE; if has(set, 16) { needed - 1 } else { needed }]
}

#[test]
fn check_sheet_refuses_in_order() {
    let mut rng = Rng::new(4);
    for set in 0..1 << OF_SHEET {
        let (n, sheet, r) = faulty_sheet(&mut rng, set);
        let expected = first(set).map_or(Answer::code(0), |code| refusal(code, 0));
        assert_eq!(calls::check_sheet(n, &sheet, r), expected, "{set:b}");
    }
}

#[test]
fn encode_refuses_in_order() {
    let mut rng = Rng::new(5);
    for set in 0..1 << OF_CODEC {
        let (n, sheet, r) = faulty_sheet(&mut rng, set);
        // with no free position the empty payload is right
        let right = if has(set, 19) && !has(set, 15) {
            0
        } else {
            K - 11
        };
        let payload = faulty_form(bits(&mut rng, right), set, 2);
        let mut out = buffer(N, set);
        let answer = calls::encode(n, &sheet, r, &payload, &mut out);
        let expected = first(set).map_or(Answer::code(0), |code| refusal(code, 0));
        assert_eq!(answer, expected, "{set:b}");
        assert_eq!(untouched(&out), set != 0);
    }
}

#[test]
fn decode_refuses_in_order() {
    let mut rng = Rng::new(6);
    for set in 0..1 << ORDER.len() {
        let (n, sheet, r) = faulty_sheet(&mut rng, set);
        let word = if has(set, 18) {
            vec![2; N]
        } else if sheet_is_good(set) {
            any_codeword(&mut rng, n, &sheet, r)
        } else {
            vec![0; N]
        };
        let word = faulty_form(word, set, 3);
        let ceiling = LARGEST_CEILING + usize::from(has(set, 17));
        let mut out = buffer(3 * N, set);
        let answer = calls::decode(n, &sheet, r, ceiling, &word, &mut out);
        let expected = match first(set) {
            Some(code) => refusal(code, K as u16),
            None => numbers(0, 0, 0, (N - K + 11) as u16, 0),
        };
        assert_eq!(answer, expected, "{set:b}");
        assert_eq!(untouched(&out), set != 0);
    }
}

#[test]
fn read_back_refuses_in_order() {
    let mut rng = Rng::new(7);
    for set in 0..1 << OF_CODEC {
        let (n, sheet, r) = faulty_sheet(&mut rng, set);
        let codeword = if sheet_is_good(set) {
            any_codeword(&mut rng, n, &sheet, r)
        } else {
            vec![0; N]
        };
        let word = faulty_form(codeword.clone(), set, 2);
        let mut out = buffer(K - 11, set);
        let answer = calls::read_back(n, &sheet, r, &word, &mut out);
        let expected = first(set).map_or(Answer::code(0), |code| refusal(code, 0));
        assert_eq!(answer, expected, "{set:b}");
        assert_eq!(untouched(&out), set != 0);
        // a word that is none comes after the refusals
        if has(set, 16) && !has(set, 14) && !has(set, 15) && first(set) == Some(16) {
            let mut none = codeword;
            none[N - 1] ^= 1;
            let answer = calls::read_back(n, &sheet, r, &none, &mut out);
            assert_eq!(answer, Answer::code(16));
        }
    }
}

#[test]
fn sheets_at_the_border() {
    let free = vec![0; 2 * RECORD_BYTES * N];
    for n in 0..=LARGEST_EXPONENT {
        let right = RECORD_BYTES << n;
        for (length, code) in [
            (right, 0),
            (right - 1, 11),
            (right + 1, 11),
            (right + RECORD_BYTES, 11),
        ] {
            assert_eq!(
                calls::check_sheet(n, &free[..length], 0),
                Answer::code(code)
            );
        }
    }
    let next = LARGEST_EXPONENT + 1;
    assert_eq!(calls::check_sheet(next, &free, 0), Answer::code(11));
    for n in [63, 64, 256, 65535] {
        for length in [0, RECORD_BYTES, RECORD_BYTES * N] {
            assert_eq!(calls::check_sheet(n, &free[..length], 0), Answer::code(11));
        }
    }
    let mut rng = Rng::new(8);
    for r in [6, 11] {
        for k in [0, 1, r - 1, r, r + 1, 32] {
            let sheet = good(&mut rng, 32, k, STYLES[3]);
            let code = match k {
                0 => 19,
                k if k <= r => 13,
                _ => 0,
            };
            assert_eq!(calls::check_sheet(5, &sheet, r), Answer::code(code));
        }
    }
    for r in (0..300).chain([65535]) {
        let code = if [0, 6, 11].contains(&r) { 0 } else { 13 };
        let sheet = &free[..RECORD_BYTES * N];
        assert_eq!(
            calls::check_sheet(LARGEST_EXPONENT, sheet, r),
            Answer::code(code)
        );
    }
}

/// What the four calls of a sheet answer, each with nothing wrong but the sheet and r, and each
/// with a wrong length, symbol, room and ceiling as well.
fn hold_refused(n: usize, sheet: &[u8], r: usize, word: &[u8], expected: Answer) {
    assert_eq!(calls::check_sheet(n, sheet, r), expected);
    let strange = vec![255; (1 << n) + 1];
    for (payload, word, room, ceiling) in [
        (&[0; 0][..], word, 3 << n, LARGEST_CEILING),
        (&[], &vec![2; 1 << n], 3 << n, 0),
        (&strange, &strange, 0, LARGEST_CEILING + 1),
    ] {
        let mut out = vec![BEFORE; room];
        let encoded = calls::encode(n, sheet, r, payload, &mut out);
        let decoded = calls::decode(n, sheet, r, ceiling, word, &mut out);
        let read = calls::read_back(n, sheet, r, word, &mut out);
        assert_eq!([encoded, decoded, read], [expected; 3], "n {n}, r {r}");
        assert!(untouched(&out));
    }
}

#[test]
fn sheets_that_hold_nothing() {
    let mut rng = Rng::new(10);
    for n in 0..=LARGEST_EXPONENT {
        for style in STYLES {
            let sheet = good(&mut rng, 1 << n, 0, style);
            let word = only_word(n, &sheet);
            // before 13, whatever r is
            for r in [0, 6, 11, 1, 5, 7, 12, 256, 65535] {
                hold_refused(n, &sheet, r, &word, Answer::code(19));
            }
            // after 11 and 12
            hold_refused(n, &sheet[1..], 0, &word, Answer::code(11));
            hold_refused(n + LARGEST_EXPONENT + 1, &sheet, 0, &word, Answer::code(11));
            let place = rng.below(1 << n);
            let mut bad = sheet.clone();
            bad[RECORD_BYTES * place + 2] = 1;
            hold_refused(n, &bad, 5, &word, Answer::at(12, place));
            // one free position is enough
            let mut one = sheet.clone();
            one[RECORD_BYTES * place..][..RECORD_BYTES].fill(0);
            assert_eq!(calls::check_sheet(n, &one, 0), Answer::code(0));
            assert_eq!(calls::check_sheet(n, &one, 6), Answer::code(13));
            let codeword = any_codeword(&mut rng, n, &one, 0);
            assert_eq!(decode(n, &one, 0, 0, &codeword).0.code, 0);
        }
    }
    // of all sheets up to four symbols exactly those without a free record
    for n in 0..=2 {
        for records in every_sheet(1 << n) {
            let code = if records.iter().all(|record| record.frozen) {
                19
            } else {
                0
            };
            let answer = calls::check_sheet(n, &bytes(&records), 0);
            assert_eq!(answer, Answer::code(code));
        }
    }
}

#[test]
fn every_single_bit_of_a_record() {
    // a lone mask bit j in record i of the largest N is good exactly when frozen and j < i
    for i in [0, 1, 7, 8, 63, 64, 126, 127, 128, 255, 256, N - 2, N - 1] {
        for j in 0..8 * MASK_BYTES {
            for kind in [0, 1] {
                let mut sheet = vec![0; RECORD_BYTES * N];
                sheet[RECORD_BYTES * i] = kind;
                sheet[RECORD_BYTES * i + 4 + j / 8] = 1 << (j % 8);
                let good = kind == 1 && j < i;
                let expected = if good {
                    Answer::code(0)
                } else {
                    Answer::at(12, i)
                };
                assert_eq!(calls::check_sheet(LARGEST_EXPONENT, &sheet, 0), expected);
                if good {
                    let read = Sheet::read(LARGEST_EXPONENT, &sheet, 0).expect("a good sheet");
                    assert_eq!(read.records[i].named, [j]);
                }
            }
        }
    }
    for at in 0..4 {
        for value in 0..=255 {
            for kind in [0, 1] {
                let mut sheet = vec![0; 2 * RECORD_BYTES];
                sheet[RECORD_BYTES] = kind;
                sheet[RECORD_BYTES + at] = value;
                let good = match at {
                    0 => value <= 1,
                    1 => value <= kind,
                    _ => value == 0,
                };
                let expected = if good {
                    Answer::code(0)
                } else {
                    Answer::at(12, 1)
                };
                assert_eq!(calls::check_sheet(1, &sheet, 0), expected);
            }
        }
    }
}

#[test]
fn ceiling_at_its_edges() {
    let (n, most) = (LARGEST_EXPONENT, LARGEST_CEILING);
    let free = vec![0; RECORD_BYTES * N];
    for lost in [0, 1, 63, 64, most - 1, most, most + 1, N] {
        let word: Vec<u8> = (0..N).map(|j| if j < lost { 2 } else { 0 }).collect();
        for ceiling in [0, 1, 62, 63, 64, most - 2, most - 1, most] {
            let code = match lost {
                _ if lost > ceiling => 18,
                0 => 0,
                _ => 1,
            };
            let d = if code == 1 { lost } else { 0 };
            let answer = decode(n, &free, 0, ceiling, &word).0;
            assert_eq!(answer, numbers(code, 0, lost as u16, 0, d as u16));
        }
        for ceiling in [most + 1, 65535] {
            assert_eq!(decode(n, &free, 0, ceiling, &word).0, Answer::code(17));
        }
    }
}
