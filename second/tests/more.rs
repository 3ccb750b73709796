// More read, never less known (W-212): every word of 8 symbols with every way to fill it in, random
// words of every N, the lists of candidates, another ceiling; and wrong decoders, each of which is caught.

mod common;
use common::{any_sheet, choices, decode, rounds, sheet_e};
use second::brute::every_codeword;
use second::code::{agrees, ERASED};
use second::limits::LARGEST_CEILING;
use second::make::{any_codeword, bits, damaged, every_word};
use second::more::{every_filling, filled_in, hold, Broken, Told};
use second::rng::Rng;
use second::sheet::Sheet;
use std::collections::BTreeSet;

fn told(n: usize, sheet: &[u8], r: usize, ceiling: usize, word: &[u8]) -> Told {
    let (answer, strips) = decode(n, sheet, r, ceiling, word);
    let word = word.to_vec();
    Told {
        word,
        answer,
        strips,
    }
}

/// Sheets of 8 records with a check length and ceilings: E, and some that are drawn.
fn sheets_of_eight() -> Vec<(Vec<u8>, usize, Vec<usize>)> {
    let mut rng = Rng::new(70);
    let mut sheets = vec![(sheet_e(), 0, vec![0, 1, 3, LARGEST_CEILING])];
    for r in [0, 6] {
        let sheet = any_sheet(&mut rng, 3, r).0;
        sheets.push((sheet, r, vec![2, LARGEST_CEILING]));
    }
    sheets
}

/// What every word of 8 symbols is answered.
fn every_answer(sheet: &[u8], r: usize, ceiling: usize) -> Vec<Told> {
    (every_word(8, 3).iter())
        .map(|word| told(3, sheet, r, ceiling, word))
        .collect()
}

#[test]
fn every_filling_of_every_word_of_eight() {
    assert_eq!(every_filling(8).len(), 5usize.pow(8));
    let mut seen = BTreeSet::new();
    for (sheet, r, ceilings) in sheets_of_eight() {
        let k = Sheet::read(3, &sheet, r).unwrap().k();
        let lots: Vec<(usize, Vec<Told>)> = (ceilings.into_iter())
            .map(|ceiling| (ceiling, every_answer(&sheet, r, ceiling)))
            .collect();
        seen.extend(hold(k, r, &lots).unwrap().into_keys());
    }
    // every way that two answers can go is there, and no other
    let ways: Vec<(u16, u16)> = seen.into_iter().collect();
    let unique = [(0, 0), (0, 2)];
    let ambiguous = [(1, 0), (1, 1), (1, 2)];
    let refused = [(18, 0), (18, 1), (18, 2), (18, 18)];
    assert_eq!(
        ways,
        [&unique[..], &ambiguous, &[(2, 2)], &refused].concat()
    );
}

#[test]
fn the_candidates_are_among_those_before() {
    let words = every_word(8, 3);
    for (sheet, r, _) in sheets_of_eight() {
        let codewords = every_codeword(&Sheet::read(3, &sheet, r).unwrap(), r);
        // the codewords that agree, in the order of u
        let lists: Vec<Vec<usize>> = (words.iter())
            .map(|word| {
                (0..codewords.len())
                    .filter(|&t| agrees(&codewords[t].1, word))
                    .collect()
            })
            .collect();
        for (a, b) in every_filling(8) {
            let mut rest = lists[a].iter();
            assert!(lists[b].iter().all(|t| rest.any(|s| s == t)));
        }
    }
}

/// The word with each erased symbol filled in at a chance of `parts` in eight, off another word.
fn filled(rng: &mut Rng, word: &[u8], from: &[u8], parts: usize) -> Vec<u8> {
    (word.iter().zip(from))
        .map(|(&symbol, &read)| {
            let fill = symbol == ERASED && rng.below(8) < parts;
            if fill {
                read
            } else {
                symbol
            }
        })
        .collect()
}

#[test]
fn random_words_of_every_length() {
    let mut rng = Rng::new(71);
    let mut seen = BTreeSet::new();
    for (n, r) in choices() {
        for round in 0..rounds(n, 40) {
            let (sheet, read) = any_sheet(&mut rng, n, r);
            let truth = any_codeword(&mut rng, n, &sheet, r);
            let mut word = damaged(&mut rng, &truth, round % 9);
            if round % 5 == 0 {
                word[rng.below(1 << n)] = rng.below(3) as u8;
            }
            // what is fetched is the codeword's, or anything
            let from = if round % 3 == 0 {
                bits(&mut rng, 1 << n)
            } else {
                truth
            };
            let parts = rng.within(1, 8);
            let fuller = filled(&mut rng, &word, &from, parts);
            assert!(filled_in(&word, &fuller));
            let g = usize::from(told(n, &sheet, r, 0, &word).answer.g);
            let mut before: Option<Told> = None;
            for ceiling in [0, g.saturating_sub(1), g, g + 1, LARGEST_CEILING] {
                let ceiling = ceiling.min(LARGEST_CEILING);
                let first = told(n, &sheet, r, ceiling, &word);
                let second = told(n, &sheet, r, ceiling, &fuller);
                assert_eq!(first.broken_alone(read.k(), r), None);
                assert_eq!(first.broken(&second), None, "{first:?} {second:?}");
                if let Some(low) = before {
                    assert_eq!(low.broken_by_ceiling(&first, ceiling), None, "{low:?}");
                }
                seen.insert((first.answer.code, second.answer.code));
                before = Some(first);
            }
        }
    }
    assert_eq!(seen.len(), 10, "{seen:?}");
}

#[test]
fn what_is_filled_in() {
    let (word, erased) = ([0, 1, 2, 2], ERASED);
    for fuller in [[0, 1, 2, 2], [0, 1, 0, 2], [0, 1, 1, 0]] {
        assert!(filled_in(&word, &fuller));
    }
    // a symbol that was read changes or is lost, a fill that is no symbol, a longer word
    for fuller in [[1, 1, 2, 2], [0, 0, 2, 2], [0, erased, 2, 2], [0, 1, 3, 2]] {
        assert!(!filled_in(&word, &fuller));
    }
    assert!(!filled_in(&word, &[0, 1, 2, 2, 2]));
}

/// The sentences that the answers break, over all pairs.
fn sentences(answers: &[Told], pairs: &[(usize, usize)]) -> Vec<Broken> {
    (pairs.iter())
        .map(|&(a, b)| answers[a].broken(&answers[b]))
        .filter(Option::is_some)
        .collect()
}

#[test]
fn wrong_decoders_are_caught() {
    let sheet = sheet_e();
    let (k, right) = (4, every_answer(&sheet, 0, LARGEST_CEILING));
    let pairs = every_filling(8);
    assert!(sentences(&right, &pairs).is_empty());
    let lost = |told: &Told| told.word.iter().filter(|&&s| s == ERASED).count() as u16;
    let ambiguous = |told: &Told| told.answer.code == 1;
    type Wrong<'a> = (&'a str, Box<dyn Fn(&mut Told) + 'a>);
    let wrong: [Wrong; 12] = [
        (
            "unique stays the same codeword or becomes inconsistent",
            // the first codeword is taken for the content
            Box::new(|told| {
                if let (1, Some(strips)) = (told.answer.code, &mut told.strips) {
                    let first = strips[1].clone();
                    *strips = [first.clone(), first.clone(), first];
                    (told.answer.code, told.answer.d) = (0, 0);
                }
            }),
        ),
        (
            "unique stays the same codeword or becomes inconsistent",
            // only what was read is called settled
            Box::new(|told| {
                let word = told.word.clone();
                told.strips.iter_mut().for_each(|s| s[0] = word.clone());
            }),
        ),
        (
            "under the ceiling stays under it",
            // a word with much read is refused
            Box::new(move |told| {
                if lost(told) == 0 {
                    told.answer.code = 18;
                }
            }),
        ),
        (
            "g does not grow",
            Box::new(move |told| told.answer.g += u16::from(lost(told) == 0)),
        ),
        (
            "each symbol lowers g by one at most",
            Box::new(|told| told.answer.g *= 2),
        ),
        (
            "m does not fall, and m - g rises by what was filled in",
            // every erased symbol counts as an unknown
            Box::new(move |told| told.answer.g = lost(told)),
        ),
        (
            "inconsistent stays inconsistent",
            // a word with nothing lost is never inconsistent
            Box::new(move |told| {
                if lost(told) == 0 {
                    told.answer.code = 0;
                    told.strips = Some([0; 3].map(|_| told.word.clone()));
                }
            }),
        ),
        (
            "settled places that are read as they were settled change nothing",
            // no word is unique where anything is lost
            Box::new(move |told| {
                if (told.answer.code, lost(told) > 0) == (0, true) {
                    (told.answer.code, told.answer.d) = (1, 1);
                }
            }),
        ),
        (
            "d does not grow",
            Box::new(move |told| {
                if ambiguous(told) {
                    told.answer.d = 9 - lost(told);
                }
            }),
        ),
        (
            "each symbol lowers d by one at most",
            Box::new(move |told| {
                if ambiguous(told) {
                    told.answer.d *= 2;
                }
            }),
        ),
        (
            "a settled place keeps its value",
            // a settled 1 that was lost is told as 0 where much was lost
            Box::new(move |told| {
                let (much, word) = (lost(told) > 4, told.word.clone());
                for strips in told.strips.iter_mut().filter(|_| much) {
                    for (settled, &symbol) in strips[0].iter_mut().zip(&word) {
                        if (symbol, *settled) == (ERASED, 1) {
                            *settled = 0;
                        }
                    }
                }
            }),
        ),
        (
            "first and last do not move apart",
            Box::new(|told| told.strips.iter_mut().for_each(|s| s.swap(1, 2))),
        ),
    ];
    for (sentence, wrong) in wrong {
        let mut answers = right.clone();
        answers.iter_mut().for_each(wrong);
        let broken = sentences(&answers, &pairs);
        assert!(broken.contains(&Some(sentence)), "{sentence}");
    }
    // a settled place is read otherwise, and the word is called unique all the same
    let contrary = |a: &Told, b: &Told| {
        let strips = a.strips.as_ref().filter(|_| ambiguous(a))?;
        let fetched = |&j: &usize| a.word[j] != b.word[j];
        let other = |j: usize| b.word[j] < ERASED && strips[0][j] == 1 - b.word[j];
        ((0..8).any(|j| fetched(&j)) && (0..8).filter(fetched).all(other)).then_some(())
    };
    let &(a, b) = (pairs.iter())
        .find(|&&(a, b)| contrary(&right[a], &right[b]).is_some())
        .unwrap();
    let (first, mut second) = (&right[a], right[b].clone());
    assert_eq!(second.answer.code, 2);
    second.answer.code = 0;
    let content = &first.strips.as_ref().unwrap()[1];
    second.strips = Some([0, 1, 2].map(|_| content.clone()));
    assert_eq!(
        first.broken(&second),
        Some("d falls by reading a place that was not settled")
    );
    // or it is not looked at
    (second.answer.code, second.answer.d) = (1, first.answer.d);
    second.strips = first.strips.clone();
    assert_eq!(
        first.broken(&second),
        Some("a settled place that is read otherwise makes the word inconsistent")
    );
    // m without r, or with the open positions in it
    let mut answer = right[0].clone();
    assert_eq!(answer.broken_alone(k, 0), None);
    answer.answer.m += 1;
    assert!(answer.broken_alone(k, 0).is_some());
}

#[test]
fn wrong_ceilings_are_caught() {
    let sheet = sheet_e();
    let word = [ERASED; 8];
    let answer = |ceiling| told(3, &sheet, 0, ceiling, &word);
    let g = usize::from(answer(0).answer.g);
    assert_eq!((g, answer(g).answer.code), (4, 1));
    assert_eq!(answer(3).broken_by_ceiling(&answer(4), 4), None);
    assert_eq!(answer(4).broken_by_ceiling(&answer(5), 5), None);
    // refused where g just meets the ceiling
    assert!(answer(2).broken_by_ceiling(&answer(3), 4).is_some());
    // answered where g passes it
    assert!(answer(2).broken_by_ceiling(&answer(4), 3).is_some());
    // another g is named
    let mut other = answer(3);
    other.answer.g = 5;
    assert!(answer(2).broken_by_ceiling(&other, 3).is_some());
    // a count or a byte moves with the ceiling
    for change in [0, 1] {
        let mut other = answer(255);
        match change {
            0 => other.answer.m += 1,
            _ => other.strips.iter_mut().for_each(|s| s[2][7] ^= 1),
        }
        assert!(answer(4).broken_by_ceiling(&other, 255).is_some());
    }
}
