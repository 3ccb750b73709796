// Op 4, stream: inputs of whole and cut-off words, sheets and choices of wrong lengths, words
// refused one by one, sheets with no free position, rooms at the edge, words that keep the check as
// it could be misread, and words of each verdict at the borders of g. A stream has many words for
// one sheet: of the longest code it is here that every kind of word is met.

use super::parts::{
    any_checks, any_style, checked_codes, choices, every_none_free, exponents, first_middle_last,
    none_free, old_sheets, spoil_frozen, spoil_somehow, symbols, telling_words, Code, CHECKS, LONG,
};
use super::unknowns::{self, contradicted, lost_at, lost_to};
use crate::calls::ANSWER_BYTES;
use crate::code::ERASED;
use crate::limits::{LARGEST_CEILING, LARGEST_EXPONENT, RECORD_BYTES};
use crate::make::{bits, damaged, every_word, only_word, MISREADINGS};
use crate::protocol::{Request, INPUT_ROOM, OUTPUT_ROOM};
use crate::rng::Rng;

pub fn all() -> Vec<Request> {
    [
        example(),
        sheet_lengths(),
        choice_lengths(),
        empty_input(),
        cut_off(),
        several_words(),
        small_codes(),
        refused_words(),
        no_free_position(),
        rooms(),
        longest(),
        ones_in_front(),
        borders_of_unknowns(),
        old_layout(),
    ]
    .concat()
}

/// A request of op 4 with exact room; n, r and the ceiling are not looked at.
fn stream(rng: &mut Rng, sheet: Vec<u8>, choice: Vec<u8>, input: Vec<u8>) -> Request {
    let [n, r, ceiling] = [(); 3].map(|()| rng.pick(&[0, 0, 0, 6, 65535]));
    let mut request = Request {
        op: 4,
        n,
        r,
        ceiling,
        a: sheet,
        b: input,
        c: choice,
        o: 0,
    };
    request.o = ANSWER_BYTES * records(&request);
    request
}

/// How many records the stream is answered with.
fn records(request: &Request) -> usize {
    let allowed = (0..=LARGEST_EXPONENT).find(|n| request.a.len() == RECORD_BYTES << n);
    match allowed {
        Some(n) if request.c.len() == 2 => request.b.len().div_ceil(1 << n),
        _ => 1,
    }
}

/// The request with its room too short by one where it can be, exact, and longer.
fn in_rooms(request: Request) -> [Request; 3] {
    let exact = request.o;
    [exact.max(1) - 1, exact, exact + 3].map(|o| Request {
        o,
        ..request.clone()
    })
}

/// The request with one of these rooms.
fn in_a_room(rng: &mut Rng, request: Request) -> Request {
    let [short, exact, long] = in_rooms(request);
    match rng.below(4) {
        0 => short,
        1 => long,
        _ => exact,
    }
}

/// So many words of a code with losses, each other, some of them off the code.
fn words(rng: &mut Rng, code: &Code, count: usize) -> Vec<u8> {
    let mut input = Vec::new();
    for _ in 0..count {
        let word = if rng.below(4) == 0 {
            bits(rng, code.length())
        } else {
            code.codeword(rng)
        };
        let losses = rng.below(6);
        input.extend(damaged(rng, &word, losses));
    }
    input
}

/// The whole stream of the bench.
fn example() -> Vec<Request> {
    let mut rng = Rng::new(400);
    let sheet = Code::bench().sheet;
    in_rooms(stream(&mut rng, sheet, vec![0, 63], symbols("011110002"))).to_vec()
}

/// Sheets of no allowed length, with a right and a wrong choice, with and without an input.
fn sheet_lengths() -> Vec<Request> {
    let mut rng = Rng::new(401);
    let mut list = Vec::new();
    let one = RECORD_BYTES;
    let largest = RECORD_BYTES << LARGEST_EXPONENT;
    for length in [
        0,
        1,
        one - 1,
        one + 1,
        2 * one - 1,
        2 * one + 1,
        3 * one,
        5 * one,
        8 * one - 1,
        8 * one + 1,
        largest - one,
        largest - 1,
        largest + 1,
        INPUT_ROOM,
    ] {
        let (choices, inputs) = match length {
            length if length < largest / 2 => (&[2, 1][..], &[0, 5][..]),
            _ => (&[2][..], &[5][..]),
        };
        for &choice in choices {
            for &input in inputs {
                let input = bits(&mut rng, input);
                let request = stream(&mut rng, vec![0; length], vec![0; choice], input);
                list.push(in_a_room(&mut rng, request));
            }
        }
    }
    list
}

/// Choices of no, one, three and four bytes, with and without an input, some with a bad record; of
/// long codes of one and three bytes, the one with and the other without an input.
fn choice_lengths() -> Vec<Request> {
    let mut rng = Rng::new(402);
    let mut list = Vec::new();
    for n in exponents() {
        for length in [0, 1, 3, 4] {
            for input in [0, (2 << n) + 1] {
                if n >= LONG && ![(1, false), (3, true)].contains(&(length, input == 0)) {
                    continue;
                }
                let mut code = Code::any(&mut rng, n, 0);
                if rng.bit() {
                    spoil_somehow(&mut rng, &mut code.sheet, 0);
                }
                let input = bits(&mut rng, input);
                let request = stream(&mut rng, code.sheet, vec![0; length], input);
                list.push(in_a_room(&mut rng, request));
            }
        }
    }
    list
}

/// No input and so no record, whatever the sheet and the choice hold.
fn empty_input() -> Vec<Request> {
    let mut rng = Rng::new(403);
    let mut list = Vec::new();
    for n in exponents() {
        for (choice, bad_record) in [([0, 63], false), ([0, 63], true), ([5, 64], false)] {
            if n >= LONG && (bad_record || choice[0] == 0) {
                continue;
            }
            let mut code = Code::any(&mut rng, n, 0);
            if bad_record {
                spoil_somehow(&mut rng, &mut code.sheet, 0);
            }
            let request = stream(&mut rng, code.sheet, choice.to_vec(), Vec::new());
            list.push(in_a_room(&mut rng, request));
        }
    }
    list
}

/// A last word of every length below N, or of a few where N is large, after none and one; of long
/// codes the longest after one.
fn cut_off() -> Vec<Request> {
    let mut rng = Rng::new(404);
    let mut list = Vec::new();
    for n in exponents().into_iter().skip(1) {
        let last = (1 << n) - 1;
        let missing = if n < 5 {
            (0..last).collect()
        } else {
            first_middle_last(last)
        };
        for rest in missing.into_iter().map(|missing| last - missing) {
            for whole in [0, 1] {
                if n >= LONG && (whole, rest) != (1, last) {
                    continue;
                }
                let code = Code::any(&mut rng, n, 0);
                let mut input = words(&mut rng, &code, whole + 1);
                input.truncate((whole << n) + rest);
                let request = stream(&mut rng, code.sheet, vec![0, 63], input);
                list.push(match whole {
                    0 => request,
                    _ => in_a_room(&mut rng, request),
                });
            }
        }
    }
    list
}

/// Several words that differ, under ceilings that some of them pass; more words of long codes, under
/// one ceiling each.
fn several_words() -> Vec<Request> {
    let mut rng = Rng::new(405);
    let mut list = Vec::new();
    let between = CHECKS.map(|r| (LONG + 1, r));
    for (n, r) in choices().into_iter().chain(between) {
        let (ceilings, most) = match n {
            0..LONG => (vec![rng.pick(&[63, 64, 255]), n as u8 / 2], 7),
            _ => (vec![(255 >> (r.div_ceil(6) * (9 - n).max(1))) as u8], 16),
        };
        for ceiling in ceilings {
            let code = Code::any(&mut rng, n, r);
            let count = rng.within(most / 2, most);
            let input = words(&mut rng, &code, count);
            let request = stream(&mut rng, code.sheet, vec![r as u8, ceiling], input);
            list.push(request);
        }
    }
    list
}

/// Every word of the codes of one and of two symbols, one after the other.
fn small_codes() -> Vec<Request> {
    let mut rng = Rng::new(409);
    let codes = Code::small().into_iter().filter(|code| code.n < 2);
    codes
        .map(|code| {
            let input = every_word(code.length(), 3).concat();
            stream(&mut rng, code.sheet, vec![0, 63], input)
        })
        .collect()
}

/// What each word is refused for: the sheet has a bad record, r is wrong or not below K, a symbol
/// is too large, g is above the ceiling; several of these at once; each with a cut-off word at the
/// end. Of long codes a few of these.
fn refused_words() -> Vec<Request> {
    let mut rng = Rng::new(406);
    let mut list = Vec::new();
    for n in exponents() {
        for (bad_record, r, bad_symbol, ceiling) in [
            (true, 5, true, 64),
            (true, 0, false, 63),
            (false, 255, false, 63),
            (false, 12, true, 200),
            (false, 11, false, 63),
            (false, 6, true, 255),
            (false, 0, true, 255),
            (false, 0, false, 64),
            (false, 0, true, 63),
            (false, 0, false, 0),
        ]
        .into_iter()
        .step_by(if n < LONG { 1 } else { 4 })
        {
            let k = rng.within(1, 6.min(1 << n));
            let style = any_style(&mut rng);
            let mut code = Code::new(&mut rng, n, 0, k, style);
            let mut input = words(&mut rng, &code, 2);
            if bad_symbol {
                input[rng.below(1 << n)] = rng.pick(&[3, 255]);
            }
            if bad_record {
                let i = rng.below(1 << n);
                spoil_somehow(&mut rng, &mut code.sheet, i);
            }
            input.truncate((2 << n) - rng.below(1 << n));
            let request = stream(&mut rng, code.sheet, vec![r, ceiling], input);
            list.push(request);
        }
    }
    list
}

/// No free position: a record of its own for each word, the cut-off last one too, and none for an
/// empty input, under right and wrong choices, with a bad symbol and without; the same with a bad
/// record at the end; one record where the choice or the sheet is of a wrong length. Of long codes a
/// few of these.
fn no_free_position() -> Vec<Request> {
    let mut rng = Rng::new(410);
    let mut list = Vec::new();
    for (n, sheet) in every_none_free() {
        let input = every_word(1 << n, 3).concat();
        list.push(stream(&mut rng, sheet, vec![0, 63], input));
    }
    let checks: Vec<u8> = (any_checks().into_iter())
        .filter_map(|r| r.try_into().ok())
        .collect();
    for n in exponents() {
        let sheet = none_free(&mut rng, n);
        let word = only_word(n, &sheet);
        let mut input = Vec::new();
        for losses in [0, 4] {
            input.extend(damaged(&mut rng, &word, losses));
        }
        let other = bits(&mut rng, 1 << n);
        input.extend(&other[..rng.within(1, ((1 << n) - 1).max(1))]);
        let mut strange = input.clone();
        strange[rng.below(input.len())] = 3;
        let mut bad_sheet = sheet.clone();
        spoil_frozen(&mut rng, &mut bad_sheet, (1 << n) - 1);
        let mut long_sheet = sheet.clone();
        long_sheet.extend([1; 3]);
        let wrong = rng.pick(&checks[3..]);
        for (sheet, choice, input) in [
            (&sheet, &[wrong, 255][..], &strange),
            (&sheet, &[6, 0], &input),
            (&sheet, &[11, 64], &strange),
            (&sheet, &[0, 63], &Vec::new()),
            (&sheet, &[0], &input),
            (&sheet, &[0, 63, 0], &Vec::new()),
            (&bad_sheet, &[0, 63], &input),
            (&long_sheet, &[0, 63], &input),
        ]
        .into_iter()
        .step_by(if n < LONG { 1 } else { 3 })
        {
            list.push(stream(
                &mut rng,
                sheet.clone(),
                choice.to_vec(),
                input.clone(),
            ));
        }
        let request = stream(&mut rng, sheet, vec![0, 63], input);
        match n {
            0 | 3 => list.extend(in_rooms(request)),
            _ => list.push(request),
        }
    }
    list
}

/// Three words in rooms of no byte, of one record less, too short by one, exact, and longer; of long
/// codes too short by one.
fn rooms() -> Vec<Request> {
    let mut rng = Rng::new(407);
    let mut list = Vec::new();
    for n in exponents() {
        let code = Code::any(&mut rng, n, 0);
        let input = words(&mut rng, &code, 3);
        let request = stream(&mut rng, code.sheet, vec![0, 63], input);
        let exact = request.o;
        let rooms = [
            exact - 1,
            exact + 1,
            exact,
            0,
            exact - ANSWER_BYTES,
            exact + ANSWER_BYTES,
        ];
        for &o in &rooms[..if n < LONG { 6 } else { 1 }] {
            list.push(Request {
                o,
                ..request.clone()
            });
        }
    }
    list
}

/// The longest inputs and outputs a request has room for.
fn longest() -> Vec<Request> {
    let mut rng = Rng::new(408);
    let mut list = Vec::new();
    for (n, bytes, o) in [
        (0, INPUT_ROOM, 1000),
        (LARGEST_EXPONENT, INPUT_ROOM, OUTPUT_ROOM),
    ] {
        let code = Code::any(&mut rng, n, 0);
        let mut input = words(&mut rng, &code, bytes.div_ceil(1 << n));
        input.truncate(bytes);
        let request = stream(&mut rng, code.sheet, vec![0, 63], input);
        list.push(Request { o, ..request });
    }
    list
}

/// Words by which the ones in front of the free bits are seen, one after the other; of long codes
/// with some losses too.
fn ones_in_front() -> Vec<Request> {
    let mut rng = Rng::new(411);
    let mut list = Vec::new();
    for code in checked_codes(&mut rng) {
        let mut words = telling_words(&mut rng, &code);
        if code.n >= LONG {
            words.drain(1..words.len() - MISREADINGS.len() - 1);
            let lost: Vec<Vec<u8>> = words.iter().map(|w| damaged(&mut rng, w, 1)).collect();
            words.extend(lost);
        }
        let input = words.concat();
        let choice = vec![code.r as u8, LARGEST_CEILING as u8];
        list.push(stream(&mut rng, code.sheet, choice, input));
    }
    list
}

/// Words of the longest code with g at each border, under every check length: of a code whose frozen
/// bits tie the unknowns, as they are and with a symbol turned over, and of one without frozen
/// bits, a word that lost all among them.
fn borders_of_unknowns() -> Vec<Request> {
    let mut rng = Rng::new(412);
    let mut list = Vec::new();
    let n = LARGEST_EXPONENT;
    for r in CHECKS {
        let tied = Code::tied(&mut rng, n, r, 1 << (n - 1));
        let loose = Code::tied(&mut rng, n, r, 1 << n);
        let [mut of_tied, mut of_loose] = [Vec::new(), Vec::new()];
        for g in unknowns::borders(n) {
            let word = unique(&mut rng, &tied, g);
            of_tied.extend(&word);
            of_tied.extend(contradicted(&mut rng, &tied, &word));
            let word = loose.codeword(&mut rng);
            of_loose.extend(lost_to(&mut rng, &loose, &word, g));
        }
        of_loose.extend(vec![ERASED; 1 << n]);
        for (code, input) in [(tied, of_tied), (loose, of_loose)] {
            let choice = vec![r as u8, LARGEST_CEILING as u8];
            list.push(stream(&mut rng, code.sheet, choice, input));
        }
    }
    list
}

/// A word of g unknowns that is unique. Many unknowns are the first positions, which the first
/// symbols leave open, so that all others can tie them.
fn unique(rng: &mut Rng, code: &Code, g: usize) -> Vec<u8> {
    loop {
        let word = code.codeword(rng);
        let word = match g {
            ..150 => lost_to(rng, code, &word, g),
            _ => lost_at(&word, &(0..g).collect::<Vec<_>>()),
        };
        if code.decoded(&word).code == 0 {
            return word;
        }
    }
}

/// Sheets of 20-byte records, of every old N: one record of 11, and the words are not read.
fn old_layout() -> Vec<Request> {
    let mut rng = Rng::new(413);
    let mut list = Vec::new();
    for (n, sheet) in old_sheets(&mut rng) {
        let input = bits(&mut rng, 2 << n);
        list.push(stream(&mut rng, sheet, vec![0, 63], input));
    }
    list
}
