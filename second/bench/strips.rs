// `repair` of the crates beside the obvious Rust program, N = 128: one process, both built for
// release, buffers warm, taken in turns, the least time of many batches. Every answer and every byte
// is compared before anything is timed. `strips LOST` makes 32 calls of ours alone, to count by.

use second::layout::NEW;
use second::obvious::Obvious;
use second::pace;
use second::rng::Rng;
use second::words::{put_garbage, Codewords};
use std::hint::black_box;
use std::time::Instant;

const N: usize = 128;
const CEILING: usize = 255;
const STRIPS: usize = 32;
const BATCH: usize = 8;
const ROUNDS: usize = 400;

extern "C" {
    fn bench_repair(
        n: usize,
        sheet: *const u8,
        sheet_length: usize,
        r: usize,
        ceiling: usize,
        strip: *const u8,
        strip_length: usize,
        lost: *const u8,
        lost_length: usize,
        out: *mut u8,
        out_length: usize,
    ) -> u64;
}

/// The code that the crates answer.
fn ours(sheet: &[u8], r: usize, strip: &[u8], lost: &[u8], out: &mut [u8]) -> u64 {
    // each slice goes as its address and its length; the call keeps none of them
    unsafe {
        bench_repair(
            7,
            sheet.as_ptr(),
            sheet.len(),
            r,
            CEILING,
            strip.as_ptr(),
            strip.len(),
            lost.as_ptr(),
            lost.len(),
            out.as_mut_ptr(),
            out.len(),
        )
    }
}

/// Strips of random codewords, each with so many records lost at random places.
fn strips(codewords: &Codewords, rng: &mut Rng, lost: usize) -> Vec<(Vec<u8>, Vec<u8>)> {
    (0..STRIPS)
        .map(|_| {
            let mut marks = vec![0; N];
            for &place in &rng.order(N)[..lost] {
                marks[place] = 1;
            }
            let mut strip = codewords.strip(rng);
            put_garbage(rng, &mut strip, &marks);
            (strip, marks)
        })
        .collect()
}

/// Nanoseconds a strip of one batch.
fn time(mut each: impl FnMut(usize), from: usize) -> f64 {
    let began = Instant::now();
    for s in from..from + BATCH {
        each(s);
    }
    began.elapsed().as_nanos() as f64 / BATCH as f64
}

fn main() {
    let sheet = NEW.write(&pace::sheet(7));
    let only: Option<usize> = std::env::args().nth(1).map(|text| text.parse().expect("a number"));
    for r in [0, 11] {
        let codewords = Codewords::new(7, &sheet, r).expect("a good sheet");
        let mut obvious = Obvious::<2>::new(7, &sheet, r).expect("a good sheet");
        for lost in [0, 16, 32, 43] {
            let mut rng = Rng::new(2000 + lost as u64);
            let strips = strips(&codewords, &mut rng, lost);
            let mut a = vec![255; 65 * N];
            let mut b = vec![255; 65 * N];
            if let Some(only) = only {
                if only == lost && r == 0 {
                    for (strip, marks) in &strips {
                        black_box(ours(&sheet, r, strip, marks, &mut a));
                    }
                }
                continue;
            }
            for (strip, marks) in &strips {
                let code = u64::from(obvious.repair(strip, marks, &mut a).code);
                assert_eq!(code, ours(&sheet, r, strip, marks, &mut b), "the codes differ");
                assert!(a == b, "the outputs differ");
            }
            let (mut theirs, mut mine) = (f64::MAX, f64::MAX);
            for round in 0..ROUNDS {
                let from = round * BATCH % STRIPS;
                theirs = theirs.min(time(
                    |s| {
                        black_box(obvious.repair(&strips[s].0, &strips[s].1, &mut a));
                    },
                    from,
                ));
                mine = mine.min(time(
                    |s| {
                        black_box(ours(&sheet, r, &strips[s].0, &strips[s].1, &mut b));
                    },
                    from,
                ));
            }
            println!(
                "N = {N}, r = {r:2}, {lost:2} lost: obvious {theirs:6.0} ns a strip, ours {mine:6.0} ns, ratio {:.2}",
                mine / theirs
            );
        }
    }
}
