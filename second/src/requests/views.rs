// Op 8, view: strips of every N with positions at and past the ends, strips of wrong lengths, n above
// the largest, and outputs shorter and longer than a record.

use crate::limits::{CARTRIDGE_BYTES, LARGEST_EXPONENT};
use crate::protocol::Request;
use crate::rng::Rng;
use crate::words::any_bytes;

pub fn all() -> Vec<Request> {
    [positions(), outputs(), lengths(), large_exponents()].concat()
}

/// A request of op 8; the ceiling is not looked at.
fn view(rng: &mut Rng, n: usize, position: usize, strip: Vec<u8>, o: usize) -> Request {
    Request {
        op: 8,
        n: n as u16,
        r: position as u16,
        ceiling: rng.pick(&[0, 0, 0, 7, 65535]),
        a: strip,
        o,
        ..Request::default()
    }
}

/// A strip of any bytes.
fn any_strip(rng: &mut Rng, n: usize) -> Vec<u8> {
    any_bytes(rng, CARTRIDGE_BYTES << n)
}

/// Every position of a short strip and some past it; of a long one the first, the last and the next.
fn positions() -> Vec<Request> {
    let mut rng = Rng::new(840);
    let mut list = Vec::new();
    for n in 0..=LARGEST_EXPONENT {
        let length = 1 << n;
        let positions: Vec<usize> = match n {
            0..5 => (0..=length + 1)
                .chain([2 * length, 256 + length / 2, 32768, 65535])
                .collect(),
            5 | 6 => vec![0, length / 2, length - 1, length, length + 1, 256, 65535],
            _ => vec![0, length - 1, length],
        };
        for position in positions {
            let strip = any_strip(&mut rng, n);
            list.push(view(&mut rng, n, position, strip, CARTRIDGE_BYTES));
        }
    }
    list
}

/// Outputs without a byte, too short by one and by more, and longer, of views and of empty ones.
fn outputs() -> Vec<Request> {
    let mut rng = Rng::new(841);
    let mut list = Vec::new();
    for n in 0..8 {
        let mut outputs = vec![CARTRIDGE_BYTES - 1, CARTRIDGE_BYTES + 6, 0, 1, 8, 65];
        outputs.truncate(if n < 6 { 6 } else { 1 });
        for o in outputs {
            let position = rng.below(1 << n);
            let strip = any_strip(&mut rng, n);
            list.push(view(&mut rng, n, position, strip.clone(), o));
            if n < 5 {
                list.push(view(&mut rng, n, 1 << n, strip, o));
            }
        }
    }
    list
}

/// Strips one byte and one record off, empty, half and twice as long.
fn lengths() -> Vec<Request> {
    let mut rng = Rng::new(842);
    let mut list = Vec::new();
    for n in 0..=LARGEST_EXPONENT {
        let right = CARTRIDGE_BYTES << n;
        let record = CARTRIDGE_BYTES;
        let mut lengths = vec![
            right - 1,
            right + 1,
            right - record,
            right + record,
            right / 2,
            2 * right,
            0,
        ];
        lengths.truncate(match n {
            0..6 => 7,
            6 | 7 => 2,
            _ => 1,
        });
        for length in lengths {
            let position = rng.pick(&[0, (1 << n) - 1]);
            let strip = any_bytes(&mut rng, length);
            list.push(view(&mut rng, n, position, strip, record));
        }
    }
    list
}

/// n above the largest, by one, by what a shift by n cut short would allow, and far; with strips of the
/// length that the low bits of n ask for, and a long one.
fn large_exponents() -> Vec<Request> {
    let mut rng = Rng::new(843);
    let mut list = Vec::new();
    let next = LARGEST_EXPONENT + 1;
    for n in [next, next + 1, 255, 65535] {
        for short in [0, 2] {
            let strip = any_strip(&mut rng, short);
            list.push(view(&mut rng, n, 0, strip, CARTRIDGE_BYTES));
        }
        list.push(view(&mut rng, n, 0, Vec::new(), CARTRIDGE_BYTES));
    }
    let strip = any_strip(&mut rng, 7);
    list.push(view(&mut rng, next, 0, strip, CARTRIDGE_BYTES));
    for n in 0..5 {
        for past in [16, 32, 64, 256, 32768] {
            let strip = any_strip(&mut rng, n);
            list.push(view(&mut rng, n + past, 0, strip, CARTRIDGE_BYTES));
        }
    }
    list
}
