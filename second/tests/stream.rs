// The stream: every word has the record of decoding it alone, and where no word can be read there is one
// record.

mod common;
use common::{decode, lone, record, symbols, untouched, BEFORE};
use second::answer::Answer;
use second::calls::{self, ANSWER_BYTES};
use second::limits::{LARGEST_EXPONENT, RECORD_BYTES};
use second::make::{any_codeword, bits, damaged, good, only_word, STYLES};
use second::rng::Rng;
use second::sheet::Sheet;
use std::collections::BTreeSet;

/// One record of a stream, made from decoding its word alone.
fn alone(n: usize, sheet: &[u8], r: usize, ceiling: usize, word: &[u8]) -> Vec<u8> {
    let (answer, strips) = decode(n, sheet, r, ceiling, word);
    record(answer.numbers(), strips)
}

#[test]
fn every_word_of_a_stream_has_its_own_record() {
    let mut rng = Rng::new(9);
    let mut codes = BTreeSet::new();
    for n in 0..=LARGEST_EXPONENT {
        for (r, ceiling, none_free) in [
            (0, 63, false),
            (6, 3, false),
            (11, 63, false),
            (0, 64, false),
            (5, 63, false),
            (6, 255, false),
            (0, 255, true),
            (5, 64, true),
        ] {
            let k = if none_free {
                0
            } else {
                rng.within((r + 1).min(1 << n), 1 << n)
            };
            let mut sheet = good(&mut rng, 1 << n, k, STYLES[3]);
            if r == 11 && n % 2 == 0 {
                sheet[RECORD_BYTES * ((1 << n) - 1) + 2] = 9;
            }
            let mut input = Vec::new();
            for count in 0..6 {
                let losses = rng.below(8);
                let word = if n > 3 && count % 2 == 0 && Sheet::read(n, &sheet, r).is_ok() {
                    any_codeword(&mut rng, n, &sheet, r)
                } else {
                    bits(&mut rng, 1 << n)
                };
                input.extend(damaged(&mut rng, &word, losses));
            }
            let at = rng.below(input.len());
            input[at] = 3;
            input.truncate(input.len() - rng.below(1 << n));
            let expected: Vec<Vec<u8>> = (input.chunks(1 << n))
                .map(|word| alone(n, &sheet, r, ceiling, word))
                .collect();
            assert_eq!(expected.len(), 6, "rounded up");
            codes.extend(expected.iter().map(|record| record[0]));
            let expected = expected.concat();
            let mut out = vec![BEFORE; expected.len() + 4];
            let choice = [r as u8, ceiling as u8];
            let answer = calls::stream(&sheet, &choice, &input, &mut out);
            assert_eq!(answer, Answer::code(0));
            assert_eq!(out.split_off(expected.len()), [BEFORE; 4]);
            assert!(out == expected, "n {n} r {r}");
        }
    }
    // a ceiling of one byte is never too large
    assert_eq!(codes, BTreeSet::from([0, 1, 2, 12, 13, 14, 15, 18, 19]));
}

#[test]
fn streams_of_a_sheet_that_holds_nothing() {
    let mut rng = Rng::new(11);
    for n in 0..=LARGEST_EXPONENT {
        let sheet = good(&mut rng, 1 << n, 0, STYLES[3]);
        let mut input = only_word(n, &sheet);
        input.extend(vec![2; 1 << n]);
        input.extend(vec![255; 1 << n]);
        // a cut-off word, of one symbol; one symbol cannot be cut off
        input.push(0);
        for (sheet, choice, input, expected) in [
            (&sheet[..], &[0, 63][..], &input[..], lone(19).repeat(4)),
            (&sheet, &[11, 63], &input, lone(19).repeat(4)),
            (&sheet, &[5, 64], &input, lone(19).repeat(4)),
            (&sheet, &[0, 63], &[], Vec::new()),
            (&sheet, &[0], &input, lone(13)),
            (&sheet, &[], &[], lone(13)),
            (&sheet[1..], &[0, 63], &input, lone(11)),
            (&sheet[1..], &[0], &input, lone(11)),
        ] {
            let mut out = vec![BEFORE; expected.len() + 1];
            let answer = calls::stream(sheet, choice, input, &mut out);
            assert_eq!(answer, Answer::code(0));
            assert_eq!(out.pop(), Some(BEFORE));
            assert!(out == expected, "n {n}, choice {choice:?}");
        }
    }
}

#[test]
fn streams_that_read_no_word() {
    let input = symbols("0101");
    let free = vec![0; (2 * RECORD_BYTES) << LARGEST_EXPONENT];
    for (sheet, choice, expected) in [
        (0, 2, lone(11)),
        (RECORD_BYTES - 1, 2, lone(11)),
        (3 * RECORD_BYTES, 0, lone(11)),
        (free.len(), 2, lone(11)),
        (2 * RECORD_BYTES, 0, lone(13)),
        (2 * RECORD_BYTES, 1, lone(13)),
        (free.len() / 2, 3, lone(13)),
    ] {
        for input in [&input[..], &[]] {
            let mut out = vec![BEFORE; ANSWER_BYTES + 1];
            let answer = calls::stream(&free[..sheet], &[0; 3][..choice], input, &mut out);
            assert_eq!(answer, Answer::code(0));
            assert_eq!(out.pop(), Some(BEFORE));
            assert_eq!(out, expected, "sheet {sheet}, choice {choice}");
            let mut short = vec![BEFORE; ANSWER_BYTES - 1];
            let answer = calls::stream(&free[..sheet], &[0; 3][..choice], input, &mut short);
            assert_eq!(answer, Answer::code(16));
            assert!(untouched(&short));
        }
    }
    let answer = calls::stream(&free[..2 * RECORD_BYTES], &[0, 63], &[], &mut []);
    assert_eq!(
        answer,
        Answer::code(0),
        "no word, no record, no room needed"
    );
    for (room, code) in [(0, 16), (2 * ANSWER_BYTES - 1, 16), (2 * ANSWER_BYTES, 0)] {
        let mut out = vec![BEFORE; room];
        let answer = calls::stream(&free[..2 * RECORD_BYTES], &[0, 63], &input[..3], &mut out);
        assert_eq!(answer, Answer::code(code));
        assert_eq!(untouched(&out), code == 16);
    }
}
