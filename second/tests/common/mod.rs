// What the tests share: sheet E, random sheets, calls on a marked buffer, answer records, the check
// by a register, and empty folders.
#![allow(dead_code)] // each test file uses a part of it

use second::answer::Answer;
use second::calls::{self, ANSWER_BYTES};
use second::code::transform;
use second::limits::{HEADER_BYTES, LARGEST_EXPONENT, RECORD_BYTES, STRIP_BYTES};
use second::make::{good, STYLES};
use second::rng::Rng;
use second::sheet::Sheet;
use std::path::{Path, PathBuf};

pub mod strips;

/// What a buffer holds before a call.
pub const BEFORE: u8 = 165;

/// Whether a buffer is as it was found.
pub fn untouched(out: &[u8]) -> bool {
    out.iter().all(|&byte| byte == BEFORE)
}

/// u_0 = u_1 = u_2 = 0 and u_4 = u_3, written out byte by byte.
pub fn sheet_e() -> Vec<u8> {
    let mut sheet = vec![0; 8 * RECORD_BYTES];
    for i in [0, 1, 2, 4] {
        sheet[RECORD_BYTES * i] = 1;
    }
    sheet[RECORD_BYTES * 4 + 4] = 8;
    sheet
}

/// The symbols of a text such as 02200220.
pub fn symbols(text: &str) -> Vec<u8> {
    text.bytes().map(|digit| digit - b'0').collect()
}

pub fn numbers(code: u16, place: u16, g: u16, m: u16, d: u16) -> Answer {
    Answer {
        code,
        place,
        g,
        m,
        d,
    }
}

/// Every n with every check length that a good sheet of N = 2^n can have.
pub fn choices() -> Vec<(usize, usize)> {
    (0..=LARGEST_EXPONENT)
        .flat_map(|n| [(n, 0), (n, 6), (n, 11)])
        .filter(|&(n, r)| r < 1 << n)
        .collect()
}

/// So many rounds, fewer for the largest N.
pub fn rounds(n: usize, count: usize) -> usize {
    if n < 8 {
        count
    } else {
        count.div_ceil(4)
    }
}

/// An answer record: five numbers low byte first, then three strips or none, padded with 255.
pub fn record(numbers: [u16; 5], strips: Option<[Vec<u8>; 3]>) -> Vec<u8> {
    let mut record: Vec<u8> = numbers.into_iter().flat_map(u16::to_le_bytes).collect();
    record.resize(HEADER_BYTES, 0);
    for mut strip in strips.unwrap_or_default() {
        strip.resize(STRIP_BYTES, 255);
        record.extend(strip);
    }
    record
}

/// The five numbers of an answer record.
pub fn numbers_of(record: &[u8]) -> [u16; 5] {
    [0, 2, 4, 6, 8].map(|at| u16::from_le_bytes([record[at], record[at + 1]]))
}

/// Code, g, m and d of each record.
pub fn verdicts(records: &[u8]) -> Vec<[u16; 4]> {
    assert!(records.len().is_multiple_of(ANSWER_BYTES));
    let counts = |record: &[u8]| {
        let [code, _, g, m, d] = numbers_of(record);
        [code, g, m, d]
    };
    records.chunks(ANSWER_BYTES).map(counts).collect()
}

/// A record of a code with the rest 0 and no strips.
pub fn lone(code: u16) -> Vec<u8> {
    record([code, 0, 0, 0, 0], None)
}

/// A good sheet of any style whose K is above r, as bytes and as read.
pub fn any_sheet(rng: &mut Rng, n: usize, r: usize) -> (Vec<u8>, Sheet) {
    let k = rng.within(r + 1, 1 << n);
    let style = STYLES[rng.below(STYLES.len())];
    let bytes = good(rng, 1 << n, k, style);
    let sheet = Sheet::read(n, &bytes, r).expect("a good sheet");
    (bytes, sheet)
}

/// Decodes into a buffer five bytes longer than needed, and holds that these stay.
pub fn decode(
    n: usize,
    sheet: &[u8],
    r: usize,
    ceiling: usize,
    word: &[u8],
) -> (Answer, Option<[Vec<u8>; 3]>) {
    let length = 1 << n;
    let mut out = vec![BEFORE; 3 * length + 5];
    let answer = calls::decode(n, sheet, r, ceiling, word, &mut out);
    assert_eq!(out[3 * length..], [BEFORE; 5]);
    let strips = [0, 1, 2].map(|s| out[s * length..(s + 1) * length].to_vec());
    if answer.code <= 1 {
        (answer, Some(strips))
    } else {
        assert!(out.iter().all(|&byte| byte == BEFORE), "untouched");
        (answer, None)
    }
}

/// The bits that a register of r bits, holding `start`, is left with when a sequence has gone in
/// bit by bit: the remainder, where it starts from 0.
pub fn register(start: u32, sequence: &[bool], r: usize) -> u32 {
    // the polynomial without its highest power
    let low = match r {
        6 => 0b100001,
        11 => 0b11000100001,
        r => panic!("no check of length {r}"),
    };
    let mut state = start;
    for &bit in sequence {
        let top = state >> (r - 1) & 1;
        state = (state << 1 | u32::from(bit)) & ones(r);
        if top == 1 {
            state ^= low;
        }
    }
    state
}

/// A register of r bits full of ones.
pub fn ones(r: usize) -> u32 {
    (1 << r) - 1
}

/// Whether K free bits keep the check: the register starts from ones.
pub fn check_kept(free_bits: &[bool], r: usize) -> bool {
    r == 0 || register(ones(r), free_bits, r) == 0
}

/// The r bits of a register, the highest power first.
pub fn register_bits(state: u32, r: usize) -> Vec<bool> {
    (0..r).rev().map(|power| state >> power & 1 == 1).collect()
}

/// The u of a word of which nothing is lost.
pub fn u_of(word: &[u8]) -> Vec<bool> {
    let symbols: Vec<bool> = word.iter().map(|&symbol| symbol == 1).collect();
    transform(&symbols)
}

/// An empty folder for one test.
pub fn folder(name: &str) -> PathBuf {
    let folder = Path::new(env!("CARGO_TARGET_TMPDIR")).join(name);
    let _ = std::fs::remove_dir_all(&folder);
    std::fs::create_dir_all(&folder).unwrap();
    folder
}
