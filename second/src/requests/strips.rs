// Op 7, repair: the refusals, ceilings about g, and strips whose lanes are sound or spoilt, with losses
// from none to all. A request of N = 512 takes 100,000 bytes: of long codes there are the borders of g,
// and one or two of each kind.

use super::parts::{choices, suited, Code, CHECKS, LONG};
use super::strip_parts::{in_room, marked_word, marks, put_lane, repair, sound};
use super::strip_refusals;
use super::unknowns::{self, count, Case};
use crate::code::ERASED;
use crate::limits::{CARTRIDGE_BYTES, LANES, LARGEST_CEILING};
use crate::make::{every_word, MISREADINGS, STYLES};
use crate::protocol::Request;
use crate::rng::Rng;
use crate::words::{any_bytes, turn_over};

pub fn all() -> Vec<Request> {
    [
        strip_refusals::all(),
        ceilings(),
        too_many_unknowns(),
        small_codes(),
        every_loss(),
        sound_strips(),
        spoilt_lanes(),
        misread_lanes(),
        garbage(),
        borders_of_unknowns(),
    ]
    .concat()
}

/// Sound and spoilt strips of up to 32 cartridges under ceilings about their g.
fn ceilings() -> Vec<Request> {
    let mut rng = Rng::new(805);
    let mut list = Vec::new();
    for (n, r) in choices() {
        let rounds = if n < 4 { 3 } else { 1 };
        for round in (0..rounds).filter(|_| n < 5 || (n, r) == (5, 6)) {
            let code = Code::any(&mut rng, n, r);
            let mut strip = sound(&mut rng, &code);
            let lost = marks(&mut rng, 1 << n, 3 + round);
            if round == 1 {
                let t = rng.below(LANES);
                turn_over(&mut rng, &mut strip, &lost, t);
            }
            let g = count(&code, &marked_word(&lost));
            let most = LARGEST_CEILING;
            let mut ceilings = vec![g.max(1) - 1, g, g + 1, most, most + 1];
            if n < 5 {
                ceilings.extend([0, 65535]);
            }
            ceilings.sort();
            ceilings.dedup();
            for ceiling in ceilings {
                let request = repair(&mut rng, &code, strip.clone(), lost.clone());
                let ceiling = ceiling as u16;
                let request = Request { ceiling, ..request };
                list.push(in_room(&mut rng, request));
            }
        }
    }
    list
}

/// g above the largest ceiling, and so above each.
fn too_many_unknowns() -> Vec<Request> {
    let mut rng = Rng::new(806);
    let n = LONG + 1;
    let code = Code::new(&mut rng, n, 0, 1 << n, STYLES[0]);
    let strip = any_bytes(&mut rng, CARTRIDGE_BYTES << n);
    vec![repair(&mut rng, &code, strip, vec![1; 1 << n])]
}

/// The small codes with every pattern of losses, of four cartridges every third: sound strips, and
/// strips of any bits.
fn small_codes() -> Vec<Request> {
    let mut rng = Rng::new(807);
    let mut list = Vec::new();
    for code in Code::small() {
        let patterns = every_word(code.length(), 2).into_iter();
        for lost in patterns.step_by(if code.n < 2 { 1 } else { 3 }) {
            let strip = match rng.below(3) {
                0 => any_bytes(&mut rng, CARTRIDGE_BYTES << code.n),
                _ => sound(&mut rng, &code),
            };
            let request = repair(&mut rng, &code, strip, lost);
            list.push(in_room(&mut rng, request));
        }
    }
    list
}

/// Sound strips of eight cartridges: every fifth pattern of losses.
fn every_loss() -> Vec<Request> {
    let mut rng = Rng::new(808);
    let mut list = Vec::new();
    for lost in every_word(8, 2).into_iter().step_by(5) {
        let r = rng.pick(&[0, 6]);
        let code = Code::any(&mut rng, 3, r);
        let strip = sound(&mut rng, &code);
        let request = repair(&mut rng, &code, strip, lost);
        list.push(in_room(&mut rng, request));
    }
    list
}

/// A code by which losses are often made good, and lanes seen to be spoilt: mostly the free positions
/// are those with the most ones, and half of all.
fn telling_code(rng: &mut Rng, n: usize, r: usize) -> Code {
    let least = r + 1;
    match rng.below(4) {
        0 => Code::any(rng, n, r),
        _ => Code::weighted(rng, n, r, least.max(1 << (n.max(1) - 1))),
    }
}

/// Sound strips with losses from none to all, of every check length.
fn sound_strips() -> Vec<Request> {
    let mut rng = Rng::new(809);
    let mut list = Vec::new();
    for (n, r) in choices() {
        let losses = match n {
            0..3 => vec![0, 0, 1, 1, 2, 2, 3, 3, 4, 5, 6, 8],
            3 | 4 => vec![0, 1, 1, 2, 3, 4, 6, 8],
            5 => vec![1, 2, 4],
            6 => vec![2],
            _ => Vec::new(),
        };
        for losses in losses {
            let code = telling_code(&mut rng, n, r);
            let strip = sound(&mut rng, &code);
            let lost = marks(&mut rng, 1 << n, losses);
            let request = repair(&mut rng, &code, strip, lost);
            list.push(in_room(&mut rng, request));
        }
    }
    // nothing lost, and all
    for (n, mark) in [(5, 0), (5, 1), (6, 0), (6, 1)] {
        let code = Code::weighted(&mut rng, n, 11, 1 << (n - 1));
        let strip = sound(&mut rng, &code);
        list.push(repair(&mut rng, &code, strip, vec![mark; 1 << n]));
    }
    list
}

/// Lanes at the edges of bytes and of words of 64 bits.
const TELLING_LANES: [usize; 14] = [
    0,
    1,
    7,
    8,
    9,
    63,
    64,
    65,
    127,
    128,
    255,
    256,
    448,
    LANES - 1,
];

/// Strips of which one lane is the first inconsistent one, alone or before others, in codes of every
/// check length, with some losses. One symbol alone has no rule to break.
fn spoilt_lanes() -> Vec<Request> {
    let mut rng = Rng::new(820);
    let mut list = Vec::new();
    for (n, r) in choices().into_iter().filter(|&(n, _)| n > 0) {
        let lanes = match n {
            0..4 => TELLING_LANES.to_vec(),
            4 => TELLING_LANES[r / 4..].iter().step_by(2).copied().collect(),
            5 => vec![[0, 7, 8][r / 5], [63, 64, LANES - 1][r / 5]],
            6 | LONG => vec![[0, 63, 448][r / 5]],
            _ => Vec::new(),
        };
        for (at, t) in lanes.into_iter().enumerate() {
            let request = spoilt(&mut rng, n, r, t, at % 3);
            list.push(in_room(&mut rng, request));
        }
    }
    list
}

/// A strip whose lane t is inconsistent, and some later ones too.
fn spoilt(rng: &mut Rng, n: usize, r: usize, t: usize, later: usize) -> Request {
    loop {
        let code = match n {
            0..3 => Code::any(rng, n, r),
            _ => telling_code(rng, n, r),
        };
        let mut strip = sound(rng, &code);
        let losses = rng.below(4);
        let lost = marks(rng, 1 << n, losses);
        turn_over(rng, &mut strip, &lost, t);
        for _ in 0..later {
            let other = rng.within(t, LANES - 1);
            turn_over(rng, &mut strip, &lost, other);
        }
        let request = repair(rng, &code, strip, lost);
        let (answer, _) = request.perform();
        if (answer.code, usize::from(answer.place)) == (2, t) {
            return request;
        }
    }
}

/// One lane keeps the check only as it could be misread, a later one as in another way; nothing is
/// lost, or a little.
fn misread_lanes() -> Vec<Request> {
    let mut rng = Rng::new(821);
    let mut list = Vec::new();
    for (n, r) in choices().into_iter().filter(|&(n, r)| r > 0 && n < LONG) {
        for turn in 0..if n < 5 { 4 } else { 1 } {
            let code = Code::any(&mut rng, n, r);
            let mut strip = sound(&mut rng, &code);
            for (at, t) in [rng.below(256), rng.within(256, LANES - 1)]
                .into_iter()
                .enumerate()
            {
                let word = code.misread(&mut rng, MISREADINGS[(n + r + turn + at) % 4]);
                put_lane(&mut strip, t, &word);
            }
            let lost = marks(&mut rng, 1 << n, turn % 2);
            list.push(repair(&mut rng, &code, strip, lost));
        }
    }
    list
}

/// The same strip with zeros, with 255 and with any bytes in its lost records, and with those of
/// another codeword.
fn garbage() -> Vec<Request> {
    let mut rng = Rng::new(822);
    let mut list = Vec::new();
    for n in 0..6 {
        let r = rng.pick(&CHECKS);
        let code = telling_code(&mut rng, n, suited(n, r));
        let strip = sound(&mut rng, &code);
        let other = sound(&mut rng, &code);
        let mut lost = marks(&mut rng, 1 << n, 3);
        lost[0] = 1;
        let any = repair(&mut rng, &code, strip, lost.clone());
        for fill in [vec![0; other.len()], vec![255; other.len()], other] {
            let mut request = any.clone();
            let records = request.b.chunks_mut(CARTRIDGE_BYTES).zip(&lost);
            let records = records.zip(fill.chunks(CARTRIDGE_BYTES));
            for ((record, _), fill) in records.filter(|((_, &mark), _)| mark == 1) {
                record.copy_from_slice(fill);
            }
            list.push(request);
        }
        list.push(any);
    }
    list
}

/// Strips with g on both sides of each multiple of 64, each with one verdict; under the ceiling g or
/// the largest.
fn borders_of_unknowns() -> Vec<Request> {
    let mut rng = Rng::new(823);
    let mut list = Vec::new();
    for (n, r, g, code, ceiling) in [
        (7, 11, 63, 0, 63),
        (7, 6, 64, 0, LARGEST_CEILING),
        (7, 0, 65, 1, 65),
        (7, 11, 64, 2, 64),
        (8, 6, 127, 0, LARGEST_CEILING),
        (8, 11, 128, 2, 128),
        (8, 0, 191, 1, 191),
        (8, 6, 192, 1, 192),
        (9, 11, 64, 2, 64),
        (9, 6, 192, 1, 192),
        (9, 11, 255, 0, LARGEST_CEILING),
    ] {
        // the losses and the code of a sound word
        let verdict = u16::from(code == 1);
        let case = Case { r, verdict };
        let (sheet, word) = unknowns::word(&mut rng, n, g, case, list.len());
        let lost: Vec<u8> = word.iter().map(|&s| u8::from(s == ERASED)).collect();
        loop {
            let mut strip = sound(&mut rng, &sheet);
            if code == 2 {
                let t = rng.pick(&[127, 128, 320, LANES - 1]);
                turn_over(&mut rng, &mut strip, &lost, t);
            }
            let request = repair(&mut rng, &sheet, strip, lost.clone());
            let ceiling = ceiling as u16;
            let request = Request { ceiling, ..request };
            if request.perform().0.code == code {
                list.push(in_room(&mut rng, request));
                break;
            }
        }
    }
    list
}
