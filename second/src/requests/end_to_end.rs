// Op 15, strips end to end: none, one and several that differ, cut-off ones, sheets and choices of
// wrong lengths, strips refused one by one, and rooms at the edge of either buffer.

use super::parts::{exponents, none_free, spoil_somehow, suited, Code, CHECKS, LONG};
use super::strip_parts::{marks, sound};
use crate::calls;
use crate::limits::{
    CARTRIDGE_BYTES, HEADER_BYTES, LANES, LARGEST_CEILING, LARGEST_EXPONENT, RECORD_BYTES,
};
use crate::protocol::Request;
use crate::rng::Rng;
use crate::words::{put_garbage, turn_over};

pub fn all() -> Vec<Request> {
    [
        several(),
        cut_off(),
        long_codes(),
        sheet_lengths(),
        choice_lengths(),
        refused(),
        rooms(),
        splits(),
    ]
    .concat()
}

/// A request of op 15 with exact rooms; the ceiling is not looked at.
fn strips(rng: &mut Rng, sheet: Vec<u8>, choice: &[u8], lost: &[u8], input: Vec<u8>) -> Request {
    let (records, repaired) = needed(&sheet, choice, &input);
    Request {
        op: 15,
        n: choice.len() as u16,
        r: records as u16,
        ceiling: rng.pick(&[0, 0, 0, 5, 65535]),
        a: sheet,
        b: input,
        c: [choice, lost].concat(),
        o: records + repaired,
    }
}

/// The bytes of the records and of the repaired strips.
fn needed(sheet: &[u8], choice: &[u8], input: &[u8]) -> (usize, usize) {
    match calls::stream_numbers(sheet, choice) {
        Ok((n, ..)) => {
            let count = input.len().div_ceil(CARTRIDGE_BYTES << n);
            let repaired = calls::repaired_bytes(1 << n);
            (HEADER_BYTES * count, repaired * count)
        }
        Err(_) => (HEADER_BYTES, 0),
    }
}

/// The request with so many bytes more in the buffer of the records and in that of the repaired.
fn in_rooms(request: &Request, records: isize, repaired: isize) -> Request {
    Request {
        r: request.r.saturating_add_signed(records as i16),
        o: request.o.saturating_add_signed(records + repaired),
        ..request.clone()
    }
}

/// Strips one after the other, each sound or spoilt in some lane, with any bytes in the lost records.
fn input(rng: &mut Rng, code: &Code, lost: &[u8], spoilt: &[bool]) -> Vec<u8> {
    let mut input = Vec::new();
    for &spoilt in spoilt {
        let mut strip = sound(rng, code);
        put_garbage(rng, &mut strip, lost);
        if spoilt {
            let t = rng.below(LANES);
            turn_over(rng, &mut strip, lost, t);
        }
        input.extend(strip);
    }
    input
}

/// A code that makes some losses good, as far as N allows it.
fn code(rng: &mut Rng, n: usize, r: usize) -> Code {
    match n {
        0..2 => Code::any(rng, n, r),
        _ => Code::weighted(rng, n, r, (r + 1).max(1 << (n - 1))),
    }
}

/// None, one and several strips that differ, sound ones behind spoilt ones, of every check length; one
/// sound strip has lost most.
fn several() -> Vec<Request> {
    let mut rng = Rng::new(860);
    let mut list = Vec::new();
    for n in 0..LONG {
        for r in CHECKS.into_iter().filter(|&r| suited(n, r) == r) {
            let mut kinds = vec![
                &[][..],
                &[false],
                &[true],
                &[false, true, false],
                &[true, true, false, false, true],
            ];
            match n {
                0..5 => {}
                5 => kinds = vec![kinds[3]],
                _ => kinds = vec![kinds[[0, 3, 0][r / 5]]],
            }
            for spoilt in kinds {
                let code = code(&mut rng, n, r);
                let losses = match spoilt {
                    [false] => 7,
                    _ => rng.below(4),
                };
                let lost = marks(&mut rng, 1 << n, losses);
                let input = input(&mut rng, &code, &lost, spoilt);
                let ceiling = rng.pick(&[255, 255, 255, 1 << n.min(7) >> 2]);
                let choice = [r as u8, ceiling];
                list.push(strips(&mut rng, code.sheet, &choice, &lost, input));
            }
        }
    }
    list
}

/// A last strip that is cut off within its first record, after it, and before its last byte, behind
/// none and behind one.
fn cut_off() -> Vec<Request> {
    let mut rng = Rng::new(861);
    let mut list = Vec::new();
    for n in 0..LONG {
        let size = CARTRIDGE_BYTES << n;
        let mut rests = vec![size - 1, 1, 63, 64, 65, size - 64];
        rests.retain(|&rest| 0 < rest && rest < size);
        rests.dedup();
        rests.truncate(if n < 4 { 6 } else { 1 });
        for rest in rests {
            for whole in 0..if n < 5 { 2 } else { 1 } {
                let code = code(&mut rng, n, 0);
                let lost = marks(&mut rng, 1 << n, 2);
                let mut input = input(&mut rng, &code, &lost, &vec![false; whole + 1]);
                input.truncate(whole * size + rest);
                list.push(strips(&mut rng, code.sheet, &[0, 255], &lost, input));
            }
        }
    }
    list
}

/// Of long codes one strip and the first byte of the next, or one strip, sound or spoilt.
fn long_codes() -> Vec<Request> {
    let mut rng = Rng::new(862);
    let mut list = Vec::new();
    for (n, r, spoilt, rest) in [
        (7, 11, false, 1),
        (7, 6, true, 0),
        (8, 6, true, 0),
        (9, 11, false, 0),
    ] {
        let code = Code::weighted(&mut rng, n, r, 1 << (n - 1));
        let lost = marks(&mut rng, 1 << n, 1);
        let mut input = input(&mut rng, &code, &lost, &[spoilt]);
        input.extend(vec![0; rest]);
        let choice = [r as u8, LARGEST_CEILING as u8];
        list.push(strips(&mut rng, code.sheet, &choice, &lost, input));
    }
    list
}

/// Sheets of no allowed length, with right and wrong choices, with and without an input: one record.
fn sheet_lengths() -> Vec<Request> {
    let mut rng = Rng::new(863);
    let mut list = Vec::new();
    let one = RECORD_BYTES;
    for length in [0, 1, one - 1, one + 1, 3 * one, 8 * one - 1, 8 * one + 1] {
        for choice in [&[0, 255][..], &[0], &[]] {
            for bytes in [0, 70] {
                let request = strips(&mut rng, vec![0; length], choice, &[0; 3], vec![1; bytes]);
                list.push(request.clone());
                list.push(in_rooms(&request, -1, 1));
            }
        }
    }
    let longest = RECORD_BYTES << LARGEST_EXPONENT;
    for length in [longest - 1, longest + 1] {
        list.push(strips(
            &mut rng,
            vec![0; length],
            &[0, 255],
            &[],
            vec![1; 70],
        ));
    }
    list
}

/// Choices of no, one and three bytes, with and without an input, some with a bad record: one record.
fn choice_lengths() -> Vec<Request> {
    let mut rng = Rng::new(864);
    let mut list = Vec::new();
    for n in exponents() {
        for choice in [&[][..], &[0], &[0, 255, 0]] {
            for bytes in [0, CARTRIDGE_BYTES + 1] {
                if n >= 5 && (choice.len() == 1) != (bytes == 0) {
                    continue;
                }
                let mut code = Code::any(&mut rng, n, 0);
                if rng.bit() {
                    spoil_somehow(&mut rng, &mut code.sheet, 0);
                }
                let lost = marks(&mut rng, 1 << n, 1);
                let request = strips(&mut rng, code.sheet, choice, &lost, vec![0; bytes]);
                list.push(in_rooms(&request, 0, rng.pick(&[0, 0, 5])));
            }
            if n >= LONG {
                break;
            }
        }
    }
    list
}

/// What each strip is refused for, the cut-off one too: a bad record, no free position, a wrong check
/// length, marks of a wrong length, a mark above 1, a ceiling below g. Several of these at once.
fn refused() -> Vec<Request> {
    let mut rng = Rng::new(865);
    let mut list = Vec::new();
    for n in 0..5 {
        for (fault, r, marks, bad_mark, ceiling) in [
            (12, 5, -1, true, 0),
            (12, 0, 0, false, 255),
            (19, 5, 1, true, 0),
            (19, 0, 0, false, 255),
            (0, 5, -1, true, 0),
            (0, 255, 0, false, 255),
            (0, 0, -1, false, 255),
            (0, 0, 1, true, 0),
            (0, 0, 64, false, 255),
            (0, 0, 0, true, 0),
            (0, 0, 0, false, 0),
        ] {
            let mut code = Code::any(&mut rng, n, 0);
            let mut input = input(&mut rng, &code, &vec![1; 1 << n], &[false, false]);
            input.truncate(input.len() - rng.below(CARTRIDGE_BYTES << n));
            match fault {
                12 => {
                    let i = rng.below(1 << n);
                    spoil_somehow(&mut rng, &mut code.sheet, i);
                }
                19 => code.sheet = none_free(&mut rng, n),
                _ => {}
            }
            let mut lost = vec![1; (1usize << n).saturating_add_signed(marks)];
            if bad_mark && !lost.is_empty() {
                let place = rng.below(lost.len());
                lost[place] = rng.pick(&[2, 255]);
            }
            list.push(strips(&mut rng, code.sheet, &[r, ceiling], &lost, input));
        }
    }
    list
}

/// Two strips in rooms where either buffer is too short by one, by a strip's part, or without a byte;
/// where both are; and where both are longer.
fn rooms() -> Vec<Request> {
    let mut rng = Rng::new(866);
    let mut list = Vec::new();
    for n in 0..6 {
        let code = code(&mut rng, n, 0);
        let lost = marks(&mut rng, 1 << n, 2);
        let input = input(&mut rng, &code, &lost, &[true, false]);
        let request = strips(&mut rng, code.sheet, &[0, 255], &lost, input);
        let part = calls::repaired_bytes(1 << n) as isize;
        let mut rooms = vec![
            (-1, 0),
            (0, -1),
            (3, 5),
            (-1, 1),
            (1, -1),
            (-1, -1),
            (-16, 0),
            (-32, 16),
            (0, -part),
            (16, -2 * part),
            (16, part),
        ];
        rooms.truncate(if n < 4 { 11 } else { 2 });
        for (records, repaired) in rooms {
            list.push(in_rooms(&request, records, repaired));
        }
    }
    list
}

/// The numbers that split choice from marks and records from repaired strips, above what there is: all
/// of c is the choice, all of the output is the buffer for the records.
fn splits() -> Vec<Request> {
    let mut rng = Rng::new(867);
    let mut list = Vec::new();
    for n in 0..4 {
        let code = code(&mut rng, n, 0);
        let lost = vec![0; 1 << n];
        let input = input(&mut rng, &code, &lost, &[false]);
        for (choice, strip) in [(&[0, 255][..], 1), (&[0, 255], 0), (&[0], 0)] {
            let input = input[..strip * input.len()].to_vec();
            let request = strips(&mut rng, code.sheet.clone(), choice, &lost, input);
            let least = request.c.len() as u16;
            for n in [0, 1, 2, 3, least, least + 1, 65535] {
                for r in [request.r, 65535] {
                    list.push(Request {
                        n,
                        r,
                        o: request.o + HEADER_BYTES,
                        ..request.clone()
                    });
                }
            }
        }
    }
    list
}
