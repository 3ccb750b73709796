// What the programs recover, show, convert and repair are held to: every code, strips of every kind, and
// numbers above a byte.

mod common;
use common::{lone, numbers_of};
use second::calls::{self, ANSWER_BYTES};
use second::layout::OLD;
use second::limits::{CARTRIDGE_BYTES, HEADER_BYTES, STRIP_BYTES};
use second::lot::{Lot, LOT};
use second::programs;
use std::collections::{BTreeMap, BTreeSet};

#[test]
fn the_programs_are_held_to_every_code() {
    let files = programs::files();
    assert_eq!(files, programs::files());
    let file = |name| &files.iter().find(|file| file.name == name).unwrap().bytes;
    let input = file("recover/stdin");
    let words: BTreeSet<&[u8]> = input.chunks_exact(128).collect();
    // several runs of 32 words, no two the same
    assert!(words.len() > 200 && words.len() == input.len() / 128);
    assert!(!input.len().is_multiple_of(128));
    let answers = file("recover/stdout");
    assert_eq!(answers.len(), ANSWER_BYTES * (words.len() + 1));
    let code = |record: &[u8]| numbers_of(record)[0];
    let codes: BTreeSet<u16> = answers.chunks(ANSWER_BYTES).map(code).collect();
    assert_eq!(codes, BTreeSet::from([0, 1, 2, 14, 15, 18]));
    let different: BTreeSet<&[u8]> = answers.chunks(ANSWER_BYTES).collect();
    assert!(different.len() > 150, "{}", different.len());

    let records = file("show/stdin");
    assert!(!records.len().is_multiple_of(ANSWER_BYTES));
    let records: Vec<&[u8]> = records.chunks_exact(ANSWER_BYTES).collect();
    let codes: BTreeSet<u16> = records.iter().map(|record| code(record)).collect();
    let wanted = (0..=20).chain([77, 255, 256, 65535]);
    assert!({ wanted }.all(|code| codes.contains(&code)), "{codes:?}");
    let of = |wanted: u16| records.iter().filter(move |record| code(record) == wanted);
    let strip = |record: &&&[u8]| {
        let strip = record[HEADER_BYTES..][..STRIP_BYTES].iter();
        strip.take_while(|&&byte| byte != 255).count()
    };
    for code in [0, 1] {
        let lengths: BTreeSet<usize> = of(code).map(|record| strip(&record)).collect();
        for length in [1, 8, 128, STRIP_BYTES] {
            assert!(lengths.contains(&length), "{length}: {lengths:?}");
        }
    }
    for code in [12, 15] {
        let places = of(code).map(|record| numbers_of(record)[1]);
        let digits: BTreeSet<usize> = places.map(|place| place.to_string().len()).collect();
        assert_eq!(digits, BTreeSet::from([1, 2, 3, 5]));
    }
    // numbers above 255 in every field that is shown
    for (code, fields) in [
        (0, &[2, 3, 4][..]),
        (1, &[2, 3, 4]),
        (2, &[2, 3, 4]),
        (12, &[1]),
        (15, &[1]),
        (18, &[2]),
    ] {
        for &field in fields {
            let above = |record: &&&[u8]| (256..65535).contains(&numbers_of(record)[field]);
            assert!(of(code).any(|record| above(&record)), "{code}, {field}");
        }
    }
    let text = std::str::from_utf8(file("show/stdout")).unwrap();
    assert_eq!(text, second::show::lines(file("show/stdin")));
    assert_eq!(text.lines().count(), records.len());
    // a sheet with no free position as a stream answers it, and with other numbers that are not 0
    assert!(of(19).filter(|record| ***record == lone(19)).count() > 3);
    assert!(of(19).any(|record| numbers_of(record)[1..] == [65535; 4]));
    assert!(text.contains("\nrefused 19    the sheet has no free position: it holds nothing\n"));
    assert!(text.contains("\ncode 20 is no answer's\n"));

    assert_eq!(file("convert/stdin").len(), OLD.record_bytes() << 7);
    assert_eq!(file("convert/stdout"), &Lot::make(LOT).sheet);
    assert_eq!(file("recover/data/sheet.bin"), &Lot::make(LOT).sheet);
}

#[test]
fn the_program_repair_is_held_to_sound_spoilt_and_cut_off_strips() {
    let files = programs::files();
    let file = |name: &str| {
        let name = format!("repair/{name}");
        &files.iter().find(|file| file.name == name).unwrap().bytes
    };
    assert_eq!(file("args"), b"lost.bin\n/dev/null\n");
    let (sheet, choice) = (file("data/sheet.bin"), file("data/choice.bin"));
    let (lost, strips, repaired) = (file("data/lost.bin"), file("stdin"), file("stdout"));
    let (size, part) = (16 * CARTRIDGE_BYTES, 16 * (CARTRIDGE_BYTES + 1));
    let count = strips.len().div_ceil(size);
    assert!(count > 16 && !strips.len().is_multiple_of(size));
    assert_eq!((lost.len(), repaired.len()), (16, part * count));
    let mut codes = BTreeMap::new();
    for (strip, theirs) in strips.chunks(size).zip(repaired.chunks(part)) {
        let mut out = vec![255; part];
        let (r, ceiling) = (choice[0].into(), choice[1].into());
        let answer = calls::repair(4, sheet, r, ceiling, strip, lost, &mut out);
        assert_eq!(out, theirs);
        *codes.entry(answer.code).or_insert(0) += 1;
        if answer.code == 1 {
            // of the lost cartridges some are settled and some are not
            let marks = &out[size..];
            let both = [0, 1].map(|mark| (0..16).any(|j| lost[j] == 1 && marks[j] == mark));
            assert!(answer.g > 0 && both == [true; 2]);
        }
    }
    assert_eq!(codes.keys().copied().collect::<Vec<u16>>(), [1, 2, 14]);
    assert!(codes[&1] > 16 && codes[&2] > 2 && codes[&14] == 1);
    let different: BTreeSet<&[u8]> = repaired.chunks(part).collect();
    assert!(different.len() > codes[&1]);
}
