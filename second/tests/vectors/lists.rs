// What the tests of the vectors share: every request of an op with its answer, made once; which n are
// held, and to how much; what a request has wrong, each rule looked at alone; and how its sheet is.

use crate::common::{check_kept, u_of};
use second::answer::Answer;
use second::code::{free_bits, keeps};
use second::limits::{LARGEST_EXPONENT, RECORD_BYTES};
use second::protocol::Request;
use second::requests;
use second::sheet::Sheet;
use std::collections::BTreeSet;
use std::sync::OnceLock;

/// A request with its answer and its output.
pub type Answered = (Request, Answer, Vec<u8>);

/// Every request of an op, made and answered once.
pub fn answered(op: u16) -> &'static [Answered] {
    static ALL: [OnceLock<Vec<Answered>>; 16] = [const { OnceLock::new() }; 16];
    ALL[usize::from(op)].get_or_init(|| {
        let list = requests::of(op).into_iter();
        list.map(|request| {
            let (answer, out) = request.perform();
            (request, answer, out)
        })
        .collect()
    })
}

/// The codes of N = 2^n symbols are long from this n on: less is held of them.
pub const LONG: u16 = 7;

/// The largest n.
pub const MOST: u16 = LARGEST_EXPONENT as u16;

/// The n of which most is held: of the long codes the shortest and the longest.
pub fn exponents() -> Vec<u16> {
    (0..=LONG).chain([MOST]).collect()
}

/// These n with every check length a good sheet can have.
pub fn choices() -> BTreeSet<(u16, u16)> {
    (exponents().into_iter())
        .flat_map(|n| [(n, 0), (n, 6), (n, 11)])
        .filter(|&(n, r)| r < 1 << n)
        .collect()
}

/// The check lengths above 0 with every n that a good sheet can have.
pub fn checks() -> Vec<(u16, u16)> {
    choices().into_iter().filter(|&(_, r)| r > 0).collect()
}

/// Places at the edges of bytes and of words of 64 bits in a long sheet.
pub fn telling_places(n: u16) -> &'static [u16] {
    match n {
        7 => &[0, 7, 8, 63, 64, 65, 127],
        8 => &[0, 7, 8, 63, 64, 65, 127, 128, 255],
        9 => &[0, 64, 65, 127, 128, 255, 256, 320, 384, 448, 511],
        n => panic!("{n} is not long"),
    }
}

/// Where a place stands in a length: first, between or last.
pub fn kind_of_place(place: u16, length: usize) -> u8 {
    match usize::from(place) {
        0 => 0,
        place if place + 1 == length => 2,
        _ => 1,
    }
}

/// The rules that record i of N breaks, each by a number of its own.
pub fn broken(i: usize, length: usize, record: &[u8]) -> BTreeSet<u8> {
    let bits = 8 * (record.len() - 4);
    let names =
        |from: usize, to: usize| (from..to).any(|j| record[4 + j / 8] & (1 << (j % 8)) != 0);
    let rules = [
        record[0] > 1,
        record[1] > 1,
        record[2] != 0,
        record[3] != 0,
        record[0] == 0 && record[1] == 1,
        record[0] == 0 && names(0, bits),
        record[0] == 1 && names(i, i + 1),
        record[0] == 1 && names(i + 1, length),
        record[0] == 1 && names(length, bits),
    ];
    (0..9).filter(|&rule| rules[rule as usize]).collect()
}

/// N by n where it is allowed, else by the records there are.
pub fn length_of(request: &Request) -> usize {
    if request.n <= MOST {
        1 << request.n
    } else {
        request.a.len() / RECORD_BYTES
    }
}

pub fn kinds_of(request: &Request) -> Vec<u8> {
    let records = request.a.chunks(RECORD_BYTES).take(length_of(request));
    records.map(|record| record[0]).collect()
}

/// Whether there are records and each of them is frozen.
pub fn all_frozen(request: &Request) -> bool {
    let kinds = kinds_of(request);
    !kinds.is_empty() && kinds.iter().all(|&kind| kind == 1)
}

/// The kinds of good sheet seen: constants, masks, both, and a mask of all that came before.
pub fn kinds_of_sheet(sheet: &Sheet) -> Vec<u8> {
    let constant = sheet.records.iter().any(|record| record.constant);
    let named = sheet.records.iter().any(|record| !record.named.is_empty());
    let dense =
        (sheet.records.iter().enumerate()).any(|(i, record)| i > 0 && record.named.len() == i);
    let kinds = [
        !constant && !named,
        constant && !named,
        !constant && named,
        constant && named,
        dense,
    ];
    (0..5).filter(|&kind| kinds[usize::from(kind)]).collect()
}

/// Whether a word keeps every frozen rule, and whether its free bits keep the check.
pub fn kept(sheet: &Sheet, r: usize, word: &[u8]) -> (bool, bool) {
    let u = u_of(word);
    (keeps(sheet, 0, &u), check_kept(&free_bits(sheet, &u), r))
}
