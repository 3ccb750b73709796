// The sample lots and the sample strips: what they promise, what their READMEs say of them, and how their
// files are compared.

mod common;
use common::{check_kept, folder, numbers_of, u_of, verdicts, BEFORE};
use second::answer::Answer;
use second::calls::{self, ANSWER_BYTES};
use second::code::free_bits;
use second::files::{compare, write, File};
use second::layout::OLD;
use second::limits::{CARTRIDGE_BYTES, HEADER_BYTES, LANES};
use second::lot::{self, Lot, LONG, LOT};
use second::sheet::Sheet;
use second::strip_lot::SampleStrips;
use std::collections::{BTreeMap, BTreeSet};

fn lost(word: &[u8]) -> Vec<usize> {
    (0..word.len()).filter(|&j| word[j] == 2).collect()
}

#[test]
fn the_lot_has_a_sheet_of_every_kind_of_record() {
    let lot = Lot::make(LOT);
    let sheet = Sheet::read(7, &lot.sheet, 11).unwrap();
    assert_eq!((sheet.length(), sheet.k()), (128, 64));
    let frozen: Vec<_> = sheet.records.iter().filter(|r| r.frozen).collect();
    let count = |named: usize, constant| {
        (frozen.iter())
            .filter(|r| r.named.len().min(2) == named && r.constant == constant)
            .count()
    };
    for named in 0..=2 {
        assert!(count(named, false) > 2 && count(named, true) > 2);
    }
    assert!(frozen.iter().all(|r| r.named.len() <= 4));
    // dynamic ones name free positions, some of them frozen ones too
    let is_free = |&j: &usize| !sheet.records[j].frozen;
    let dynamic: Vec<_> = frozen.iter().filter(|r| !r.named.is_empty()).collect();
    assert!(dynamic.iter().all(|r| r.named.iter().any(&is_free)));
    assert!(dynamic.iter().any(|r| !r.named.iter().all(&is_free)));
    // the sheet is a polar one: the best position is free, the worst is frozen
    assert!(sheet.records[0].frozen && !sheet.records[127].frozen);
}

#[test]
fn the_lot_has_every_verdict_it_promises() {
    let lot = Lot::make(LOT);
    assert_eq!(lot.words.len(), 25);
    let (cut_off, whole) = lot.words.split_last().unwrap();
    assert!(whole.iter().all(|word| word.len() == 128) && cut_off.len() < 128);
    let found = verdicts(&lot.answers());
    assert_eq!(found.len(), 25);
    assert_eq!(lot.choice, [11, 20]);
    let ceiling = 20;
    let some = |what: &dyn Fn(usize, [u16; 4]) -> bool| {
        let records = lot.words.iter().zip(&found);
        let count = records.filter(|(word, &found)| what(lost(word).len(), found));
        assert!(count.count() > 0);
    };
    some(&|lost, [code, g, ..]| code == 0 && lost == 0 && g == 0);
    some(&|lost, [code, g, ..]| code == 0 && (1..10).contains(&lost) && g == 0);
    some(&|_, [code, g, ..]| code == 0 && g > 0);
    some(&|_, [code, g, ..]| code == 0 && g > 5);
    some(&|_, [code, _, _, d]| code == 1 && d == 1);
    some(&|_, [code, _, _, d]| code == 1 && d > 4);
    some(&|_, [code, g, ..]| code == 1 && g == ceiling);
    some(&|lost, [code, ..]| code == 2 && lost == 0);
    some(&|_, [code, g, ..]| code == 2 && g > 0);
    some(&|_, [code, ..]| code == 15);
    some(&|_, [code, g, ..]| code == 18 && g == ceiling + 1);
    some(&|_, [code, ..]| code == 14);
    assert_eq!(found[24], [14, 0, 0, 0]);
}

#[test]
fn the_lot_loses_the_same_cartridges_in_many_records() {
    let lot = Lot::make(LOT);
    let mut sets: BTreeMap<Vec<usize>, usize> = BTreeMap::new();
    for word in &lot.words[..24] {
        *sets.entry(lost(word)).or_default() += 1;
    }
    let (common, count) = sets.iter().max_by_key(|(_, &count)| count).unwrap();
    assert!(*count >= 10 && common.len() > 20);
    // every other loss is within these, or is these and more
    for set in sets.keys() {
        let shared = set.iter().filter(|j| common.contains(j)).count();
        assert_eq!(shared, set.len().min(common.len()));
    }
}

#[test]
fn unique_records_of_the_lot_give_back_their_text() {
    let lot = Lot::make(LOT);
    let sheet = Sheet::read(7, &lot.sheet, 11).unwrap();
    for (at, record) in lot.answers().chunks(ANSWER_BYTES).enumerate() {
        if record[0] == 0 {
            let word = &record[HEADER_BYTES..][..128];
            assert!(check_kept(&free_bits(&sheet, &u_of(word)), 11));
            let mut payload = vec![BEFORE; 53];
            let answer = calls::read_back(7, &lot.sheet, 11, word, &mut payload);
            assert_eq!(answer, Answer::code(0));
            let byte = |bits: &[u8]| bits.iter().fold(0, |byte, bit| 2 * byte + bit);
            let text: Vec<u8> = payload[..48].chunks(8).map(byte).collect();
            let text = String::from_utf8(text).unwrap();
            let ends = ["PASS", "FAIL"].map(|end| format!("{:02}{end}", at + 1));
            assert!(ends.contains(&text), "{text}");
        }
    }
}

#[test]
fn the_long_lot_has_every_verdict_a_stream_can_give() {
    let lot = Lot::make(LONG);
    let sheet = Sheet::read(9, &lot.sheet, 11).unwrap();
    assert_eq!((sheet.length(), lot.words.len()), (512, 24));
    let dynamic = sheet.records.iter().filter(|r| !r.named.is_empty());
    assert!(dynamic.count() > 100);
    assert_eq!(lot.choice, [11, 200]);
    let found = verdicts(&lot.answers());
    let codes: BTreeSet<u16> = found.iter().map(|found| found[0]).collect();
    assert_eq!(codes, BTreeSet::from([0, 1, 2, 14, 15, 18]));
    let some = |what: &dyn Fn([u16; 4]) -> bool| assert!(found.iter().any(|&found| what(found)));
    for words in [64, 128] {
        some(&|[code, g, ..]| code == 0 && g >= words);
        some(&|[code, g, ..]| code == 1 && g >= words);
        some(&|[code, g, ..]| code == 2 && g >= words);
    }
    some(&|[code, g, ..]| code == 0 && (1..64).contains(&g));
    some(&|[code, _, _, d]| code == 1 && d == 1);
    some(&|[code, _, _, d]| code == 1 && d > 63);
    some(&|[code, _, m, _]| code == 0 && m > 255);
    some(&|[code, g, ..]| code == 1 && g == 200);
    some(&|[code, g, ..]| code == 18 && g == 201);
    some(&|[code, g, ..]| code == 18 && g == 256);
}

#[test]
fn the_readmes_say_what_the_answers_say() {
    let files = lot::files();
    let names: Vec<&str> = files.iter().map(|file| &file.name[..]).collect();
    let of_lots = ["lot", "long"].map(|folder| {
        ["sheet.bin", "choice.bin", "words.bin", "README.md"].map(|name| format!("{folder}/{name}"))
    });
    assert_eq!(names[..8], of_lots.concat());
    assert_eq!(names[8..10], ["old/sheet.bin", "old/README.md"]);
    let of_strips = [
        "sheet.bin",
        "choice.bin",
        "lost.bin",
        "strips.bin",
        "README.md",
    ];
    assert_eq!(names[10..], of_strips.map(|name| format!("strips/{name}")));
    for (plan, readme) in [(LOT, 3), (LONG, 7)] {
        let lot = Lot::make(plan);
        let readme = std::str::from_utf8(&files[readme].bytes).unwrap();
        let rows: Vec<Vec<&str>> = (readme.lines())
            .map(|line| line.split('|').map(str::trim).collect())
            .filter(|row: &Vec<&str>| row.len() == 8 && row[1].parse::<usize>().is_ok())
            .collect();
        assert_eq!(rows.len(), lot.words.len());
        for ((at, row), [code, g, m, d]) in rows.iter().enumerate().zip(verdicts(&lot.answers())) {
            assert_eq!(row[1], (at + 1).to_string());
            let counts = match code {
                0..=2 => [g, m, d].map(|number| number.to_string()),
                18 => [g.to_string(), String::new(), String::new()],
                _ => [(); 3].map(|()| String::new()),
            };
            assert_eq!(row[4..7], counts);
            let said = match code {
                0 => "unique".to_string(),
                1 => "ambiguous".to_string(),
                2 => "inconsistent".to_string(),
                _ => format!("refused {code}: "),
            };
            assert!(row[3].starts_with(&said), "{row:?}");
        }
    }
}

#[test]
fn the_old_sheet_converts_to_that_of_the_lot() {
    let files = lot::files();
    let file = |name| &files.iter().find(|file| file.name == name).unwrap().bytes;
    let (old, new) = (file("old/sheet.bin"), file("lot/sheet.bin"));
    assert_eq!(old.len(), OLD.record_bytes() << 7);
    let mut out = vec![BEFORE; new.len()];
    assert_eq!(calls::convert(7, old, &mut out), Answer::code(0));
    assert_eq!(&out, new);
}

#[test]
fn the_sample_strips_are_what_their_readme_says() {
    let sample = SampleStrips::make();
    let sheet = Sheet::read(5, &sample.sheet, 6).unwrap();
    assert_eq!((sheet.k(), &sample.choice[..]), (20, &[6, 20][..]));
    let size = 32 * CARTRIDGE_BYTES;
    assert_eq!(sample.strips.len(), 5 * size + 1000);
    let (lost, more) = (sample.lost(), sample.more_lost());
    let list = |marks: &[u8]| (0..32).filter(|&j| marks[j] == 1).collect::<Vec<usize>>();
    assert_eq!((list(&lost).len(), list(&more).len()), (11, 15));
    assert!(list(&lost).iter().all(|&j| more[j] == 1));
    let numbers = |marks: &[u8]| -> Vec<[u16; 5]> {
        let records = sample.answers(marks).records;
        records.chunks(HEADER_BYTES).map(numbers_of).collect()
    };
    let [unique, spoilt, cut_off] = [[0, 0, 2, 9, 0], [2, 77, 2, 9, 0], [14, 0, 0, 0, 0]];
    let whole = [unique, unique, unique, spoilt, unique, cut_off];
    assert_eq!(numbers(&lost), whole);
    let [ambiguous, spoilt] = [[1, 0, 5, 8, 1], [2, 77, 5, 8, 0]];
    let of_more = [ambiguous, ambiguous, ambiguous, spoilt, ambiguous, cut_off];
    assert_eq!(numbers(&more), of_more);
    let unsettled = [10, 12, 18, 22, 28, 30];
    assert_eq!(sample.unsettled(&more), unsettled);
    assert!(sample.unsettled(&lost).is_empty());
    // every lane of a repaired strip is a codeword
    let repaired = sample.answers(&lost).repaired;
    for t in (0..LANES).step_by(37) {
        let word = repaired[..size].chunks(CARTRIDGE_BYTES);
        let word: Vec<u8> = word.map(|record| record[t / 8] >> (t % 8) & 1).collect();
        let mut payload = vec![BEFORE; 14];
        let answer = calls::read_back(5, &sample.sheet, 6, &word, &mut payload);
        assert_eq!(answer, Answer::code(0));
    }
    let files = sample.files();
    assert_eq!((&files[2].bytes, &files[3].bytes), (&lost, &sample.strips));
    let readme = std::str::from_utf8(&files[4].bytes).unwrap();
    let [lost, more, unsettled] = [&list(&lost)[..], &list(&more), &unsettled]
        .map(|list| list.iter().map(usize::to_string).collect::<Vec<_>>());
    for text in [
        format!("lost 11 cartridges: {}.", lost.join(", ")),
        format!("bin/repair examples/strips {} <", more.join(" ")),
        format!("are not settled: {}.", unsettled.join(", ")),
        "| 1 | nothing more | unique |  | 2 | 9 | 0 |".to_string(),
        "| inconsistent | 77 | 2 | 9 | 0 |".to_string(),
        "| 5 | nothing more | ambiguous |  | 5 | 8 | 1 |".to_string(),
        "| refused 14: the strip is cut off |".to_string(),
    ] {
        assert!(readme.contains(&text), "{text}");
    }
}

#[test]
fn files_differ_at_the_first_byte_that_does() {
    let dir = folder("files");
    let file = |folder, name, bytes: &[u8]| File::new(folder, name, bytes.to_vec());
    let files = [file("a", "one", &[1, 2, 3]), file("a/under", "two", &[])];
    write(&dir, &files).unwrap();
    assert_eq!(compare(&dir, &files), Ok(()));
    for (bytes, difference) in [
        (
            &[1, 9, 9][..],
            "a/one differs at byte 1: expected 2, found 9",
        ),
        (
            &[1, 2],
            "a/one differs at byte 2: expected 3, found the end",
        ),
        (
            &[1, 2, 3, 4],
            "a/one differs at byte 3: expected the end, found 4",
        ),
    ] {
        std::fs::write(dir.join("a/one"), bytes).unwrap();
        assert_eq!(compare(&dir, &files), Err(difference.to_string()));
    }
    std::fs::remove_file(dir.join("a/one")).unwrap();
    let difference = compare(&dir, &files).unwrap_err();
    assert!(difference.starts_with("a/one cannot be read: "));
}
