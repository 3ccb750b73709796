// Words and strips drawn in any number: codewords are those of the encoder, and the same seed draws the
// same words, of every kind.

mod common;
use common::{choices, numbers_of, verdicts, BEFORE};
use second::answer::Answer;
use second::calls::{self, answer_records};
use second::limits::{HEADER_BYTES, RECORD_BYTES};
use second::lot::{Lot, LOT};
use second::make::bits;
use second::rng::Rng;
use second::strip_lot::SampleStrips;
use second::words::Codewords;
use std::collections::BTreeSet;

#[test]
fn codewords_are_those_of_the_encoder() {
    let mut rng = Rng::new(1);
    for (n, r) in choices() {
        let (sheet, read) = common::any_sheet(&mut rng, n, r);
        let codewords = Codewords::new(n, &sheet, r).ok().unwrap();
        assert_eq!(codewords.bits(), read.k() - r);
        for _ in 0..10 {
            let payload = bits(&mut rng, codewords.bits());
            let mut word = vec![BEFORE; 1 << n];
            calls::encode(n, &sheet, r, &payload, &mut word);
            assert_eq!(codewords.of(&payload), word);
        }
    }
    let refusal = |n, sheet: &[u8], r| Codewords::new(n, sheet, r).err();
    assert_eq!(
        refusal(0, &[0; RECORD_BYTES - 1], 0),
        Some(Answer::code(11))
    );
    assert_eq!(refusal(0, &[2; RECORD_BYTES], 0), Some(Answer::at(12, 0)));
    assert_eq!(refusal(0, &[0; RECORD_BYTES], 6), Some(Answer::code(13)));
    let frozen = [&[1][..], &[0; RECORD_BYTES - 1]].concat();
    for r in [0, 6, 5] {
        assert_eq!(refusal(0, &frozen, r), Some(Answer::code(19)));
    }
}

#[test]
fn drawn_words_are_the_same_again_and_of_every_kind() {
    let lot = Lot::make(LOT);
    let codewords = lot.codewords();
    let draw = |seed, count| -> Vec<Vec<u8>> {
        let mut rng = Rng::new(seed);
        (0..count).map(|_| codewords.damaged(&mut rng)).collect()
    };
    let words = draw(1, 600);
    assert_eq!(words, draw(1, 600));
    assert_eq!(words[..20], draw(1, 20));
    assert_ne!(words[..20], draw(2, 20));
    let found = verdicts(&answer_records(&lot.sheet, &lot.choice, &words.concat()));
    let codes: BTreeSet<u16> = found.iter().map(|found| found[0]).collect();
    assert_eq!(codes, BTreeSet::from([0, 1, 2, 15, 18]));
}

#[test]
fn drawn_strips_are_the_same_again_and_some_are_spoilt() {
    let sample = SampleStrips::make();
    let codewords = Codewords::new(5, &sample.sheet, 6).ok().unwrap();
    let lost = sample.lost();
    let draw = |seed, count| -> Vec<u8> {
        let mut rng = Rng::new(seed);
        let strips = (0..count).map(|_| codewords.damaged_strip(&mut rng, &lost));
        strips.collect::<Vec<_>>().concat()
    };
    let strips = draw(1, 80);
    assert_eq!(strips, draw(1, 80));
    assert_ne!(strips, draw(2, 80));
    let answers = calls::strip_answers(&sample.sheet, &sample.choice, &lost, &strips);
    let codes = answers
        .records
        .chunks(HEADER_BYTES)
        .map(|r| numbers_of(r)[0]);
    let spoilt = codes.clone().filter(|&code| code == 2).count();
    assert!((3..20).contains(&spoilt), "{spoilt}");
    assert_eq!(codes.filter(|&code| code == 0).count(), 80 - spoilt);
}
