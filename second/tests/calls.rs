// The calls of words where nothing is refused: what was written reads back, damaged or not, and a word
// is a codeword by decode exactly when it is by read-back.

mod common;
use common::{
    any_sheet, check_kept, choices, decode, numbers, ones, register, register_bits, rounds, u_of,
    untouched, BEFORE,
};
use second::answer::Answer;
use second::calls;
use second::code::free_bits;
use second::limits::LARGEST_CEILING;
use second::make::{any_codeword, bits, damaged, good, word_of, Misreading, MISREADINGS, STYLES};
use second::rng::Rng;
use second::sheet::Sheet;

#[test]
fn written_reads_back() {
    let mut rng = Rng::new(1);
    for (n, r) in choices() {
        for _ in 0..rounds(n, 20) {
            let (sheet, read) = any_sheet(&mut rng, n, r);
            let payload = bits(&mut rng, read.k() - r);
            let mut word = vec![BEFORE; (1 << n) + 2];
            let answer = calls::encode(n, &sheet, r, &payload, &mut word);
            assert_eq!(answer, Answer::code(0));
            assert_eq!(word.split_off(1 << n), [BEFORE; 2]);
            assert!(check_kept(&free_bits(&read, &u_of(&word)), r));
            let mut out = vec![BEFORE; payload.len() + 2];
            let answer = calls::read_back(n, &sheet, r, &word, &mut out);
            assert_eq!(answer, Answer::code(0));
            assert_eq!(out[..payload.len()], payload);
            assert_eq!(out[payload.len()..], [BEFORE; 2]);
            let (answer, strips) = decode(n, &sheet, r, 0, &word);
            let m = (1 << n) - read.k() + r;
            assert_eq!(answer, numbers(0, 0, 0, m as u16, 0));
            assert_eq!(strips, Some([(); 3].map(|()| word.clone())));
        }
    }
}

#[test]
fn damaged_words_keep_what_was_stored() {
    let mut rng = Rng::new(2);
    let mut unique = 0;
    for (n, r) in choices().into_iter().filter(|&(n, _)| n >= 3) {
        for round in 0..rounds(n, 30) {
            let (sheet, _) = any_sheet(&mut rng, n, r);
            let word = any_codeword(&mut rng, n, &sheet, r);
            let damaged = damaged(&mut rng, &word, round % 4);
            let (answer, strips) = decode(n, &sheet, r, LARGEST_CEILING, &damaged);
            let Some([settled, first, last]) = strips else {
                assert_eq!(answer.code, 18);
                continue;
            };
            for (j, &symbol) in settled.iter().enumerate() {
                assert!(symbol == 2 || symbol == word[j]);
            }
            if answer.code == 0 {
                assert_eq!((&settled, &first, &last), (&word, &word, &word));
                unique += usize::from(damaged != word);
            }
        }
    }
    assert!(unique > 50, "{unique}");
}

#[test]
fn a_word_is_a_codeword_or_not() {
    let mut rng = Rng::new(3);
    let mut seen = [0; 3];
    for (n, r) in choices() {
        for _ in 0..rounds(n, 30) {
            let (sheet, read) = any_sheet(&mut rng, n, r);
            let mut word = any_codeword(&mut rng, n, &sheet, r);
            word[rng.below(1 << n)] ^= 1;
            let mut out = vec![BEFORE; read.k() - r];
            let answer = calls::read_back(n, &sheet, r, &word, &mut out);
            assert_eq!(answer, Answer::code(answer.code));
            let mut again = vec![BEFORE; 1 << n];
            let is_codeword = answer.code == 0
                && calls::encode(n, &sheet, r, &out, &mut again).code == 0
                && again == word;
            assert_eq!(answer.code == 0, is_codeword);
            assert!(is_codeword || out.iter().all(|&byte| byte == BEFORE));
            assert_eq!(decode(n, &sheet, r, 0, &word).0.code, answer.code);
            seen[usize::from(answer.code)] += 1;
        }
    }
    assert!(seen[0] > 10 && seen[2] > 200, "{seen:?}");
}

/// Decodes a word of which nothing is lost and reads it back: whether both say it is a codeword.
fn is_codeword(n: usize, sheet: &[u8], r: usize, word: &[u8]) -> bool {
    let read = Sheet::read(n, sheet, r).expect("a good sheet");
    let (answer, strips) = decode(n, sheet, r, 0, word);
    let m = (1 << n) - read.k() + r;
    assert_eq!(answer, numbers(answer.code, 0, 0, m as u16, 0));
    let mut out = vec![BEFORE; read.k() - r];
    let read_back = calls::read_back(n, sheet, r, word, &mut out);
    assert_eq!(read_back, Answer::code(answer.code));
    assert_eq!(strips.is_some(), answer.code == 0);
    assert!(strips.is_some() || untouched(&out));
    answer.code == 0
}

#[test]
fn the_all_zero_word() {
    let mut rng = Rng::new(12);
    for (n, r) in choices() {
        for k in [r + 1, rng.within(r + 1, 1 << n), 1 << n] {
            // no constant is 1
            for style in [STYLES[0], STYLES[2]] {
                let sheet = good(&mut rng, 1 << n, k, style);
                let zero = vec![0; 1 << n];
                assert_eq!(is_codeword(n, &sheet, r, &zero), r == 0);
                // the codeword of the payload of zeros holds what is left of r ones
                let mut free_bits = vec![false; k - r];
                if r > 0 {
                    // without the ones it would keep the check
                    assert!(Misreading::NoOnes.keeps(&vec![false; k], r));
                    let check = register(ones(r), &vec![false; k], r);
                    free_bits.extend(register_bits(check, r));
                }
                let read = Sheet::read(n, &sheet, r).unwrap();
                let word = word_of(&read, &free_bits);
                assert!(is_codeword(n, &sheet, r, &word));
                let mut out = vec![BEFORE; 1 << n];
                calls::encode(n, &sheet, r, &vec![0; k - r], &mut out);
                assert_eq!(out, word);
            }
        }
    }
}

#[test]
fn words_of_a_check_misread() {
    let mut rng = Rng::new(13);
    let mut refused = [0; 4];
    for (n, r) in choices().into_iter().filter(|&(n, r)| n >= 3 && r > 0) {
        for _ in 0..rounds(n, 10) {
            let (sheet, read) = any_sheet(&mut rng, n, r);
            for (at, misreading) in MISREADINGS.into_iter().enumerate() {
                let payload = bits(&mut rng, read.k() - r);
                let free_bits = misreading.free_bits(&payload, r);
                let word = word_of(&read, &free_bits);
                let right = check_kept(&free_bits, r);
                assert_eq!(is_codeword(n, &sheet, r, &word), right);
                refused[at] += usize::from(!right);
            }
        }
    }
    assert!(refused.iter().all(|&count| count > 80), "{refused:?}");
}
