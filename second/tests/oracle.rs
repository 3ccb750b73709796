// The dense system held to the trial of every u, the open positions to the trial of every pair,
// and what depends on the losses alone.

mod common;
use common::{any_sheet, check_kept, choices, decode, rounds};
use second::answer::Answer;
use second::layout::NEW;
use second::limits::{LARGEST_CEILING, LARGEST_EXPONENT};
use second::make::{any_codeword, bits, bytes, damaged, every_sheet, every_word};
use second::rng::Rng;
use second::sheet::Sheet;
use second::{brute, dense, open};

#[test]
fn every_sheet_and_word_up_to_four() {
    for (n, count, none_free) in [(0, 3, 2), (1, 15, 8), (2, 2295, 1024)] {
        let sheets = every_sheet(1 << n);
        assert_eq!(sheets.len(), count);
        let mut refused = 0;
        let mut seen = [0; 3];
        for records in sheets {
            let sheet = &Sheet { records };
            let bytes = bytes(&sheet.records);
            assert_eq!(NEW.read(n, &bytes).as_ref(), Ok(&sheet.records));
            // K = 0 is refused; its system is held to the trial all the same
            let read = Sheet::read(n, &bytes, 0);
            if sheet.k() == 0 {
                assert_eq!(read, Err(Answer::code(19)));
                refused += 1;
            } else {
                assert_eq!(read.as_ref(), Ok(sheet));
            }
            for word in every_word(1 << n, 3) {
                let found = dense::agreeing(sheet, 0, &word);
                assert_eq!(
                    found,
                    brute::agreeing(sheet, 0, &word),
                    "{sheet:?} {word:?}"
                );
                if sheet.k() > 0 {
                    seen[found.map_or(2, |found| found.d.min(1))] += 1;
                }
            }
        }
        assert_eq!(refused, none_free);
        // one free symbol has no rule to break
        let most = if n == 0 { 2 } else { 3 };
        assert!(seen[..most].iter().all(|&count| count > 0), "{seen:?}");
    }
}

#[test]
fn random_cases_of_eight() {
    let mut rng = Rng::new(1);
    for r in [0, 6] {
        let mut seen = [0; 3];
        for round in 0..4000 {
            let (bytes, sheet) = any_sheet(&mut rng, 3, r);
            let word = if round % 4 == 0 {
                bits(&mut rng, 8)
            } else {
                any_codeword(&mut rng, 3, &bytes, r)
            };
            let losses = rng.below(9);
            let word = damaged(&mut rng, &word, losses);
            let found = dense::agreeing(&sheet, r, &word);
            assert_eq!(
                found,
                brute::agreeing(&sheet, r, &word),
                "{sheet:?} {word:?}"
            );
            seen[found.map_or(2, |found| found.d.min(1))] += 1;
        }
        assert!(seen.iter().all(|&count| count > 100), "{seen:?}");
    }
}

/// The word of N symbols erased at the marked places.
fn erased(length: usize, marks: usize) -> Vec<u8> {
    (0..length)
        .map(|j| if marks >> j & 1 == 1 { 2 } else { 0 })
        .collect()
}

#[test]
fn open_positions_by_all_pairs() {
    for n in 0..=3 {
        let mut sets = std::collections::HashSet::new();
        for marks in 0..1usize << (1 << n) {
            let word = erased(1 << n, marks);
            let open = open::open_positions(&word);
            assert_eq!(open, brute::open_positions(&word), "{word:?}");
            let count = open.iter().filter(|&&open| open).count();
            assert_eq!(count, marks.count_ones() as usize);
            sets.insert(open);
        }
        assert!(n == 0 || sets.len() > 1 << n, "more sets than sizes");
    }
    assert_eq!(open::open_positions(&[2, 0]), [true, false]);
    assert_eq!(open::open_positions(&[0, 2]), [true, false]);
}

#[test]
fn as_many_open_as_erased() {
    let mut rng = Rng::new(2);
    for n in 4..=LARGEST_EXPONENT {
        for losses in 0..=8 {
            for _ in 0..6 {
                let word = bits(&mut rng, 1 << n);
                let word = damaged(&mut rng, &word, losses);
                let open = open::open_positions(&word);
                let lost = word.iter().filter(|&&symbol| symbol == 2).count();
                assert_eq!(open.iter().filter(|&&open| open).count(), lost);
                // equal losses, whatever was read
                let other: Vec<u8> = word.iter().map(|&s| if s == 2 { 2 } else { 0 }).collect();
                assert_eq!(open, open::open_positions(&other));
            }
        }
    }
}

#[test]
fn counts_bound_each_other() {
    let mut rng = Rng::new(3);
    let mut strict = [0; 2];
    for (n, r) in choices() {
        for round in 0..rounds(n, 40) {
            let (bytes, sheet) = any_sheet(&mut rng, n, r);
            let word = any_codeword(&mut rng, n, &bytes, r);
            let word = damaged(&mut rng, &word, round % 9);
            let lost = word.iter().filter(|&&symbol| symbol == 2).count();
            let open = open::open_positions(&word);
            let (g, m) = open::counts(&sheet, r, &open);
            let found = dense::agreeing(&sheet, r, &word).expect("a codeword agrees");
            assert!(found.d <= g && g <= lost);
            // open and closed, free and frozen make up all N
            let closed_free = sheet.k() - g;
            let open_frozen = lost - g;
            assert_eq!(m - r + closed_free + open_frozen + g, 1 << n);
            strict[0] += usize::from(found.d < g);
            strict[1] += usize::from(g < lost);
        }
    }
    assert!(strict.iter().all(|&count| count > 50), "{strict:?}");
}

#[test]
fn losses_alone_decide_what_is_recovered() {
    let mut rng = Rng::new(4);
    let mut seen = [0; 4];
    for (n, r) in choices() {
        for round in 0..rounds(n, 60) {
            let (bytes, _) = any_sheet(&mut rng, n, r);
            let losses = round % 9;
            let word = any_codeword(&mut rng, n, &bytes, r);
            let first = damaged(&mut rng, &word, losses);
            let other = if rng.below(4) == 0 {
                bits(&mut rng, 1 << n)
            } else {
                any_codeword(&mut rng, n, &bytes, r)
            };
            let second: Vec<u8> = (first.iter().zip(&other))
                .map(|(&mark, &symbol)| if mark == 2 { 2 } else { symbol })
                .collect();
            let ceiling = if rng.bit() {
                LARGEST_CEILING
            } else {
                rng.below(20)
            };
            let (a, a_strips) = decode(n, &bytes, r, ceiling, &first);
            let (b, b_strips) = decode(n, &bytes, r, ceiling, &second);
            assert_eq!((a.g, a.m, a.code == 18), (b.g, b.m, b.code == 18));
            match (a_strips, b_strips) {
                (Some([a_settled, ..]), Some([b_settled, ..])) => {
                    assert_eq!((a.code, a.d), (b.code, b.d));
                    for (x, y) in a_settled.iter().zip(&b_settled) {
                        assert_eq!(*x == 2, *y == 2);
                    }
                    seen[usize::from(a.code)] += 1;
                }
                _ => seen[if a.code == 18 { 3 } else { 2 }] += 1,
            }
        }
    }
    assert!(seen.iter().all(|&count| count > 50), "{seen:?}");
}

#[test]
fn ends_and_settled_places_of_long_words() {
    // where no list can be made: the ends agree, keep all rules and stand around what was stored
    use second::code::{agrees, free_bits, keeps, transform};
    let mut rng = Rng::new(5);
    let mut ambiguous = 0;
    let mut settled_losses = 0;
    for (n, r) in choices().into_iter().filter(|&(n, _)| n >= 4) {
        for losses in (1..=8).rev().step_by(if n < 8 { 1 } else { 3 }) {
            let (bytes, sheet) = any_sheet(&mut rng, n, r);
            let whole = any_codeword(&mut rng, n, &bytes, r);
            let word = damaged(&mut rng, &whole, losses);
            let found = dense::agreeing(&sheet, r, &word).expect("a codeword agrees");
            let stored: Vec<bool> = whole.iter().map(|&bit| bit == 1).collect();
            let stored = transform(&stored);
            assert!(found.first <= stored && stored <= found.last);
            assert_eq!(found.first == found.last, found.d == 0);
            for u in [&found.first, &found.last] {
                let x = transform(u);
                assert!(keeps(&sheet, r, u) && agrees(&x, &word));
                assert!(check_kept(&free_bits(&sheet, u), r));
                assert!(agrees(&x, &found.settled));
            }
            for (j, &settled) in found.settled.iter().enumerate() {
                assert!(settled == 2 || settled == whole[j]);
                // a lost place is settled exactly when no codeword has its other value there; one
                // place in 37 of a long word is tried
                if word[j] != 2 {
                    assert_eq!(settled, word[j]);
                } else if n < 8 || j % 37 == 0 {
                    let mut other = word.clone();
                    other[j] = 1 - whole[j];
                    let none = dense::agreeing(&sheet, r, &other).is_none();
                    assert_eq!(settled != 2, none);
                    settled_losses += usize::from(none);
                }
            }
            ambiguous += usize::from(found.d > 0);
        }
    }
    assert!(
        ambiguous > 20 && settled_losses > 100,
        "{ambiguous}, {settled_losses}"
    );
}
