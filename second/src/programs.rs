// What the programs are held to: for each, its standard input, the files it reads, and what it must
// write. `recover` answers a stream of words; `show` says what each answer record means; `convert` turns an
// old sheet into one of today's layout; `repair` repairs strips.

use crate::answer::Answer;
use crate::calls::{answer_record, answer_records, strip_answers};
use crate::files::File;
use crate::layout::NEW;
use crate::limits::{
    CARTRIDGE_BYTES, HEADER_BYTES, LARGEST_CEILING, LARGEST_EXPONENT, RECORD_BYTES, STRIP_BYTES,
};
use crate::lot::{Lot, LONG, LOT};
use crate::make::{any_codeword, bits, damaged, good, spoil, Fault, STYLES};
use crate::requests::Code;
use crate::rng::Rng;
use crate::show::lines;
use crate::words::Codewords;

/// Their files, by their names under the folder of the crates.
pub fn files() -> Vec<File> {
    let [lot, long] = [LOT, LONG].map(Lot::make);
    let words = recover_input(&lot);
    let answers = answer_records(&lot.sheet, &lot.choice, &words);
    let records = show_input(&lot, &long);
    let text = lines(&records).into_bytes();
    let mut files = vec![
        File::new("convert", "stdin", lot.old_sheet()),
        File::new("convert", "stdout", lot.sheet.clone()),
        File::new("recover", "data/sheet.bin", lot.sheet),
        File::new("recover", "data/choice.bin", lot.choice),
        File::new("recover", "stdin", words),
        File::new("recover", "stdout", answers),
        File::new("show", "stdin", records),
        File::new("show", "stdout", text),
    ];
    files.extend(repair_files());
    files
}

/// Strips on 16 cartridges, of which some are lost and can be told, and others cannot: many drawn at
/// random, about one in eight with a bit turned over, and a cut-off one.
fn repair_files() -> Vec<File> {
    let mut rng = Rng::new(530);
    let (n, r) = (4, 6);
    let sheet = Code::weighted(&mut rng, n, r, 10).sheet;
    let choice = vec![r as u8, 20];
    let codewords = Codewords::new(n, &sheet, r).expect("a good sheet");
    let lost = loop {
        let order = rng.order(1 << n);
        let lost: Vec<u8> = (0..1 << n)
            .map(|j| u8::from(order[..9].contains(&j)))
            .collect();
        let answers = strip_answers(&sheet, &choice, &lost, &codewords.strip(&mut rng));
        let unsettled = answers.repaired.iter().skip(CARTRIDGE_BYTES << n);
        // two to six of the nine
        if (2..=6).contains(&unsettled.filter(|&&mark| mark == 1).count()) {
            break lost;
        }
    };
    let mut strips = Vec::new();
    for _ in 0..40 {
        strips.extend(codewords.damaged_strip(&mut rng, &lost));
    }
    strips.extend(&codewords.damaged_strip(&mut rng, &lost)[..700]);
    let answers = strip_answers(&sheet, &choice, &lost, &strips);
    vec![
        File::new("repair", "args", b"lost.bin\n/dev/null\n".to_vec()),
        File::new("repair", "data/sheet.bin", sheet),
        File::new("repair", "data/choice.bin", choice),
        File::new("repair", "data/lost.bin", lost),
        File::new("repair", "stdin", strips),
        File::new("repair", "stdout", answers.repaired),
    ]
}

/// The whole words of the lot, many drawn at random, and a cut-off one.
fn recover_input(lot: &Lot) -> Vec<u8> {
    let mut rng = Rng::new(512);
    let codewords = lot.codewords();
    let (cut_off, whole) = lot.words.split_last().expect("the words of the lot");
    let mut input = whole.concat();
    for _ in 0..200 {
        input.extend(codewords.damaged(&mut rng));
    }
    input.extend(cut_off);
    input
}

/// Records of every code and length, and a cut-off one.
fn show_input(lot: &Lot, long: &Lot) -> Vec<u8> {
    let mut rng = Rng::new(520);
    let mut records = [lot.answers(), long.answers()].concat();
    for (n, k) in [(0, 1), (1, 1), (3, 4)] {
        records.extend(short_words(&mut rng, n, k));
    }
    records.extend(refusals(&mut rng));
    records.extend(by_hand());
    records.extend(&lot.answers()[..100]);
    records
}

/// The answers to words of codes of 2^n symbols and k free positions: any word, and a codeword
/// whole, with losses and all lost.
fn short_words(rng: &mut Rng, n: usize, k: usize) -> Vec<u8> {
    let mut records = Vec::new();
    for style in STYLES {
        let sheet = good(rng, 1 << n, k, style);
        let codeword = any_codeword(rng, n, &sheet, 0);
        let mut input = bits(rng, 1 << n);
        for losses in [0, 3, 8] {
            input.extend(damaged(rng, &codeword, losses));
        }
        records.extend(answer_records(&sheet, &[0, 63], &input));
    }
    records
}

/// The refusals a stream can give, with places of one to three digits, of one byte and of two.
fn refusals(rng: &mut Rng) -> Vec<u8> {
    let length = 1 << LARGEST_EXPONENT;
    let most = LARGEST_CEILING as u8;
    let sheet = good(rng, length, LARGEST_CEILING + 45, STYLES[3]);
    let right = RECORD_BYTES * length;
    let word = vec![2; length];
    let mut records = Vec::new();
    for (length, choice) in [
        (0, &[0, most][..]),
        (right - 1, &[0, most]),
        (right, &[]),
        (right, &[0, most, 0]),
        (right, &[5, most]),
        (right, &[0, most]),
        (right, &[0, 0]),
    ] {
        records.extend(answer_records(&sheet[..length], choice, &word));
    }
    for place in [0, 9, 10, 99, 100, 255, 256, length - 1] {
        let mut bad_sheet = sheet.clone();
        spoil(rng, NEW, &mut bad_sheet, place, Fault::ByteTwo);
        records.extend(answer_records(&bad_sheet, &[0, most], &word));
        let mut bad_word = word.clone();
        bad_word[place] = 3;
        records.extend(answer_records(&sheet, &[0, most], &bad_word));
    }
    records.extend(answer_records(&sheet, &[0, most], &word[1..]));
    // no free position: two words, the last cut off where N allows it, under right and wrong ones
    for (n, choice) in [(0, [0, 63]), (3, [0, 63]), (7, [11, 64])] {
        let sheet = good(rng, 1 << n, 0, STYLES[3]);
        let input = vec![0; (1 << n) + 1];
        records.extend(answer_records(&sheet, &choice, &input));
    }
    records
}

/// Records that no stream gives: every code that is no answer's up to 20 and some larger ones, also
/// such whose low byte is an answer's; the refusals 16 and 17; the largest numbers and others above
/// 255 in every place; strips of any bytes and of several lengths.
fn by_hand() -> Vec<u8> {
    let mut records = Vec::new();
    for code in (0..=20).chain([77, 99, 100, 255, 256, 257, 274, 1000, 65535]) {
        let mut record = answer_record(Answer::code(code), &[], 1);
        record[2..HEADER_BYTES].fill(255);
        records.extend(record);
    }
    for code in [0, 1, 2, 12, 15, 18] {
        for numbers in [[256, 257, 300, 511], [999, 1000, 4660, 65280]] {
            let [place, g, m, d] = numbers;
            let answer = Answer {
                code,
                place,
                g,
                m,
                d,
            };
            records.extend(answer_record(answer, &[], 1));
        }
    }
    for code in 0..=2 {
        let mut record = answer_record(Answer::counted(code, 1, 22, 255), &[], 1);
        let strips = &mut record[HEADER_BYTES..];
        for (byte, value) in strips[..STRIP_BYTES].iter_mut().zip(0..255) {
            *byte = value;
        }
        strips[STRIP_BYTES..][..5].copy_from_slice(&[1, 0, 255, 1, 1]);
        strips[2 * STRIP_BYTES..].fill(254);
        records.extend(record);
    }
    records
}
