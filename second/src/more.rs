// More read, never less known (W-212): what the answers to two words have in common where the second
// word is the first with some erased symbols filled in, and what another ceiling may change.
// Nothing is decoded here: answers are held to each other, whoever gave them.

use crate::answer::Answer;
use crate::calls::ANSWER_BYTES;
use crate::code::{transform, ERASED};
use crate::limits::{HEADER_BYTES, STRIP_BYTES};
use crate::make::every_word;
use crate::show::number;
use std::collections::BTreeMap;

/// A word and what it was answered; the strips, where they were written.
#[derive(Clone, Debug, PartialEq, Eq)]
pub struct Told {
    pub word: Vec<u8>,
    pub answer: Answer,
    pub strips: Option<[Vec<u8>; 3]>,
}

/// A sentence that two answers break.
pub type Broken = Option<&'static str>;

/// Whether the second word is the first with some erased symbols filled in by 0 or 1.
pub fn filled_in(word: &[u8], fuller: &[u8]) -> bool {
    let fills = |(&a, &b): (&u8, &u8)| a == b || (a == ERASED && b < ERASED);
    word.len() == fuller.len() && word.iter().zip(fuller).all(fills)
}

fn erased(word: &[u8]) -> u16 {
    word.iter().filter(|&&symbol| symbol == ERASED).count() as u16
}

/// The u of a codeword given as symbols.
fn u_of(symbols: &[u8]) -> Vec<bool> {
    transform(
        &symbols
            .iter()
            .map(|&symbol| symbol == 1)
            .collect::<Vec<_>>(),
    )
}

impl Told {
    /// The word and its answer record: a verdict or 18, with 255 wherever no strip is written.
    pub fn read(word: &[u8], record: &[u8]) -> Result<Told, String> {
        let [code, place, g, m, d] = [0, 1, 2, 3, 4].map(|at| number(record, at));
        let answer = Answer {
            code,
            place,
            g,
            m,
            d,
        };
        let written = match code {
            0 | 1 => word.len(),
            2 | 18 => 0,
            _ => return Err(format!("{word:?} is answered {code}")),
        };
        let strips = record[HEADER_BYTES..].chunks(STRIP_BYTES);
        let (strips, rest): (Vec<&[u8]>, Vec<&[u8]>) =
            strips.map(|strip| strip.split_at(written)).unzip();
        if rest.concat().iter().any(|&byte| byte != 255) {
            return Err(format!("{word:?} has something behind its strips"));
        }
        let strips = [0, 1, 2].map(|s| strips[s].to_vec());
        Ok(Told {
            word: word.to_vec(),
            answer,
            strips: (code <= 1).then_some(strips),
        })
    }

    /// The sentence that an answer breaks by itself: under the ceiling, m and the number of erased
    /// symbols are N - K + r + g.
    pub fn broken_alone(&self, k: usize, r: usize) -> Broken {
        let Answer { code, g, m, .. } = self.answer;
        let (length, k, r) = (self.word.len() as u16, k as u16, r as u16);
        (code != 18 && m + erased(&self.word) + k != length + r + g)
            .then_some("m and the erased symbols are N - K + r + g")
    }

    /// The first sentence that two answers break, by one sheet, check length and ceiling: `more` is
    /// the answer to this word with some erased symbols filled in.
    pub fn broken(&self, more: &Told) -> Broken {
        assert!(filled_in(&self.word, &more.word));
        let (a, b) = (self.answer, more.answer);
        let filled = erased(&self.word) - erased(&more.word);
        if a.code != 18 && b.code == 18 {
            return Some("under the ceiling stays under it");
        }
        if b.g > a.g {
            return Some("g does not grow");
        }
        if a.g > b.g + filled {
            return Some("each symbol lowers g by one at most");
        }
        if a.code != 18 && (b.m < a.m || b.m + a.g != a.m + b.g + filled) {
            return Some("m does not fall, and m - g rises by what was filled in");
        }
        if a.code == 2 && b.code != 2 {
            return Some("inconsistent stays inconsistent");
        }
        let Some(before) = &self.strips else {
            return None;
        };
        let places = 0..self.word.len();
        let fetched = |j: &usize| self.word[*j] != more.word[*j];
        let settled = |j: &usize| before[0][*j] != ERASED;
        let nothing_new = (places.clone().filter(fetched)).all(|j| more.word[j] == before[0][j]);
        let same = (b.code, b.d, &more.strips) == (a.code, a.d, &self.strips);
        if nothing_new && !same {
            return Some("settled places that are read as they were settled change nothing");
        }
        if a.code == 0 && b.code != 2 && !same {
            return Some("unique stays the same codeword or becomes inconsistent");
        }
        let after = more.strips.as_ref()?;
        if b.d > a.d {
            return Some("d does not grow");
        }
        if a.d > b.d + filled {
            return Some("each symbol lowers d by one at most");
        }
        if (places.clone().filter(settled)).any(|j| before[0][j] != after[0][j]) {
            return Some("a settled place keeps its value");
        }
        if u_of(&after[1]) < u_of(&before[1]) || u_of(&after[2]) > u_of(&before[2]) {
            return Some("first and last do not move apart");
        }
        let opened = (places.clone().filter(fetched)).any(|j| !settled(&j));
        let lower = b.d < a.d || (a.code, b.code) == (1, 0);
        if lower && !opened {
            return Some("d falls by reading a place that was not settled");
        }
        (places.filter(fetched).filter(settled))
            .any(|j| more.word[j] != before[0][j])
            .then_some("a settled place that is read otherwise makes the word inconsistent")
    }

    /// The sentence that the answers to one word under two ceilings break, this one's the lower.
    pub fn broken_by_ceiling(&self, higher: &Told, ceiling: usize) -> Broken {
        let (a, b) = (self.answer, higher.answer);
        if a.code != 18 {
            return (self != higher).then_some("a higher ceiling changes 18 alone");
        }
        let over = usize::from(a.g) > ceiling;
        ((b.code == 18) != over || a.g != b.g).then_some("18 names the least ceiling that suffices")
    }
}

/// The words of so many symbols in the order of `every_word`, each with every way to fill it in, by
/// their places in that order.
pub fn every_filling(length: usize) -> Vec<(usize, usize)> {
    let mut pairs = vec![(0, 0)];
    for j in 0..length {
        let weight = 3usize.pow(j as u32);
        pairs = (pairs.iter())
            .flat_map(|&(a, b)| {
                [(0, 0), (1, 1), (2, 2), (2, 0), (2, 1)]
                    .map(|(s, t)| (a + s * weight, b + t * weight))
            })
            .collect();
    }
    pairs
}

/// The answers to every word of so many symbols, off their records.
pub fn every_told(length: usize, records: &[u8]) -> Result<Vec<Told>, String> {
    let words = every_word(length, 3);
    if records.len() != words.len() * ANSWER_BYTES {
        return Err(format!("{} records are wanted", words.len()));
    }
    (words.iter().zip(records.chunks(ANSWER_BYTES)))
        .map(|(word, record)| Told::read(word, record))
        .collect()
}

/// How often the answers to two words went from one code to another.
pub type Ways = BTreeMap<(u16, u16), usize>;

/// Holds the answers to every word of some length, under ceilings that rise, to all sentences.
pub fn hold(k: usize, r: usize, lots: &[(usize, Vec<Told>)]) -> Result<Ways, String> {
    let mut ways = Ways::new();
    let holds = |broken: Broken, told: &[&Told]| match broken {
        Some(sentence) => Err(format!("not so: {sentence}: {told:?}")),
        None => Ok(()),
    };
    for (_, answers) in lots {
        for told in answers {
            holds(told.broken_alone(k, r), &[told])?;
        }
        for (a, b) in every_filling(answers[0].word.len()) {
            let (a, b) = (&answers[a], &answers[b]);
            holds(a.broken(b), &[a, b])?;
            *ways.entry((a.answer.code, b.answer.code)).or_default() += 1;
        }
    }
    for lots in lots.windows(2) {
        let [(low, before), (ceiling, answers)] = lots else {
            unreachable!("windows of two");
        };
        if low >= ceiling {
            return Err("the ceilings do not rise".to_string());
        }
        for (low, high) in before.iter().zip(answers) {
            holds(low.broken_by_ceiling(high, *ceiling), &[low, high])?;
        }
    }
    Ok(ways)
}
