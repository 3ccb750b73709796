// The requests of op 7, repair, that are refused, or just not: the refusals in their order, and the
// lengths of strip and marks, the marks and the rooms one off.

use super::faults;
use super::parts::{few_choices, first_middle_last, suited, Code, CHECKS, LONG};
use super::strip_parts::{good, repair};
use super::unknowns::count;
use crate::calls;
use crate::code::ERASED;
use crate::layout::NEW;
use crate::limits::{CARTRIDGE_BYTES, LARGEST_CEILING, LARGEST_EXPONENT};
use crate::make::{spoil, Fault, STYLES};
use crate::protocol::Request;
use crate::rng::Rng;
use crate::words::any_bytes;

pub fn all() -> Vec<Request> {
    [
        refusal_sets(),
        alone(),
        of_sheet(),
        lengths(),
        bad_marks(),
        rooms(),
    ]
    .concat()
}

/// Puts the faults of a set into a good request. Of long codes a strip is cut off early and an output
/// is short by far.
fn put(rng: &mut Rng, mut request: Request, set: &[u16]) -> Request {
    let has = |code: u16| set.contains(&code);
    let far = request.n >= 5;
    if has(19) {
        faults::free_nothing(rng, &mut request);
    }
    if has(16) {
        request.o = match rng.below(2) {
            _ if far => rng.below(100),
            0 => request.o - 1,
            _ => rng.below(request.o),
        };
    }
    if has(15) {
        for _ in 0..rng.within(1, 2) {
            let place = rng.below(request.c.len());
            request.c[place] = rng.pick(&[2, 255]);
        }
    }
    if has(14) {
        let right = request.b.len();
        match rng.below(4) {
            _ if far => request.b.truncate(rng.below(100)),
            0 => request.b.truncate(right - 1),
            1 => request.b.push(1),
            // a bad mark is not cut off
            2 if !has(15) => request.c.truncate(request.c.len() - 1),
            _ => request.c.push(1),
        }
    }
    faults::put_in_sheet(rng, &mut request, set);
    request
}

/// Sets of faults with a ceiling below g (18), and with one above the largest (17), all cartridges
/// lost: of short codes all sets, of others each fault with all later ones. In the longest g is above
/// the largest ceiling too; of it and of the one before fewer have a low ceiling.
fn refusal_sets() -> Vec<Request> {
    let mut rng = Rng::new(800);
    let mut list = Vec::new();
    for n in 0..=LARGEST_EXPONENT {
        let sets = match n {
            0..3 => faults::sets(n),
            3 => faults::chains(true),
            _ => [faults::chains(false), vec![Vec::new()]].concat(),
        };
        for set in sets {
            let r = rng.pick(&CHECKS);
            let code = match n {
                0..LONG => Code::any(&mut rng, n, suited(n, r)),
                _ => {
                    let k = rng.within(3 << (n - 2), 1 << n);
                    Code::new(&mut rng, n, r, k, STYLES[3])
                }
            };
            let strip = any_bytes(&mut rng, CARTRIDGE_BYTES << n);
            let mut low = repair(&mut rng, &code, strip, vec![1; 1 << n]);
            let g = count(&code, &vec![ERASED; 1 << n]);
            // a bad mark is one of no loss
            let most = if set.contains(&15) { 1 } else { g };
            low.ceiling = rng.below(most.min(LARGEST_CEILING + 1)) as u16;
            let mut high = low.clone();
            let above = LARGEST_CEILING as u16 + 1;
            high.ceiling = match set.is_empty() {
                false if n < LONG => rng.pick(&[above, above, above + 1, 511, 65535]),
                _ => above,
            };
            if n <= LONG || (n, set.len()) == (LARGEST_EXPONENT, 0) {
                // with no free position there is no g
                let mut set = set.clone();
                set.retain(|&code| code != 19);
                list.push(put(&mut rng, low, &set));
            }
            list.push(put(&mut rng, high, &set));
        }
    }
    list
}

/// No fault, and each alone, under the largest ceiling. Of long codes the lists below have them.
fn alone() -> Vec<Request> {
    let mut rng = Rng::new(801);
    let mut list = Vec::new();
    for n in 0..LONG {
        for set in faults::singles() {
            let r = rng.pick(&CHECKS);
            let code = Code::any(&mut rng, n, suited(n, r));
            let mut request = good(&mut rng, &code);
            // such as bring no other along
            match set[..] {
                [11] => request.a.push(0),
                [12] => {
                    let i = rng.below(1 << n);
                    spoil(&mut rng, NEW, &mut request.a, i, Fault::ByteTwo);
                }
                [14] => request.b.truncate(request.b.len() - 1),
                [16] => request.o -= 1,
                _ => request = put(&mut rng, request, &set),
            }
            list.push(request);
        }
    }
    list
}

/// One in three of what can be wrong with the sheet or its check length; of longer codes without a
/// strip, marks and room.
fn of_sheet() -> Vec<Request> {
    let list = faults::of_sheet(810, good).into_iter().step_by(3);
    list.map(|request| match request.b.len() {
        ..=512 => request,
        _ => Request {
            b: Vec::new(),
            c: Vec::new(),
            o: 3,
            ..request
        },
    })
    .collect()
}

/// Every n with every check length that suits it, from 16 cartridges on with one.
fn one_check_each(rng: &mut Rng) -> Vec<(usize, usize)> {
    let mut list = few_choices(rng);
    list.retain(|&(n, r)| n != 4 || r == 6);
    list.push((LONG + 1, 0));
    list
}

/// The strip and the marks one too short and one too long; of short codes also empty, a record off,
/// and half and twice as long; of longer ones fewer.
fn lengths() -> Vec<Request> {
    let mut rng = Rng::new(802);
    let mut list = Vec::new();
    for (n, r) in one_check_each(&mut rng) {
        let code = Code::any(&mut rng, n, r);
        let good = good(&mut rng, &code);
        let strip = good.b.len();
        let mut strips = vec![strip - 1, strip + 1];
        let mut all_marks = vec![(1 << n) + 1, (1 << n) - 1];
        if n < 5 {
            let record = CARTRIDGE_BYTES;
            strips.extend([0, strip - record, strip + record, strip / 2, 2 * strip]);
            all_marks.extend([0, 2 << n, strip]);
        }
        if n > 5 {
            strips.truncate(1);
            all_marks.truncate(1);
        }
        match n {
            8 => strips.clear(),
            9 => all_marks.clear(),
            _ => {}
        }
        for length in strips {
            let mut request = good.clone();
            request.b.resize(length, 1);
            list.push(request);
        }
        for length in all_marks {
            let mut request = good.clone();
            request.c.resize(length, 1);
            list.push(request);
        }
    }
    list
}

/// Marks above 1, alone and before another; of longer codes one at the last place.
fn bad_marks() -> Vec<Request> {
    let mut rng = Rng::new(803);
    let mut list = Vec::new();
    for (n, r) in one_check_each(&mut rng) {
        let code = Code::any(&mut rng, n, r);
        let good = good(&mut rng, &code);
        let places = first_middle_last(1 << n);
        let mut wrong: Vec<(usize, u8)> = (places.iter())
            .flat_map(|&place| [(place, 2), (place, 255)])
            .collect();
        if n > 5 {
            wrong = vec![((1 << n) - 1, 2)];
        }
        for (place, value) in wrong {
            let mut request = good.clone();
            request.c[place] = value;
            list.push(request);
        }
        if n < 6 {
            let mut request = good;
            request.c[(1 << n) / 2..].fill(255);
            list.push(request);
        }
    }
    list
}

/// Outputs too short and too long by one, of the longest too short; of short codes also exact, without
/// a byte, with room for the records alone, and longer by more.
fn rooms() -> Vec<Request> {
    let mut rng = Rng::new(804);
    let mut list = Vec::new();
    for (n, r) in one_check_each(&mut rng) {
        let code = Code::any(&mut rng, n, r);
        let exact = calls::repaired_bytes(1 << n);
        let mut rooms = vec![exact - 1, exact + 1];
        if n < 6 {
            rooms.extend([exact, 0, exact - (1 << n), exact + 70]);
        }
        rooms.truncate(if n > LONG { 1 } else { 6 });
        for o in rooms {
            let request = good(&mut rng, &code);
            list.push(Request { o, ..request });
        }
    }
    list
}
