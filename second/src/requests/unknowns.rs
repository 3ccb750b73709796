// Words by their count of unknowns: g on both sides of each multiple of 64 and at the ends, with
// each verdict that g allows. The losses are drawn first and the sheet is made for them: as many of
// the open positions are free as g says, and frozen bits among the others tie them.

use super::parts::{Code, CHECKS};
use crate::code::ERASED;
use crate::layout::Record;
use crate::limits::LARGEST_CEILING;
use crate::make::bytes;
use crate::open;
use crate::rng::Rng;

/// g of a word.
pub fn count(code: &Code, word: &[u8]) -> usize {
    open::counts(&code.read(), code.r, &open::open_positions(word)).0
}

/// The word with the losses of the first so many places of an order.
pub fn lost_at(word: &[u8], order: &[usize]) -> Vec<u8> {
    let mut word = word.to_vec();
    for &place in order {
        word[place] = ERASED;
    }
    word
}

/// The word with just as many losses, in any order, as give this g; all if none does.
/// One loss more never takes from g.
pub fn lost_to(rng: &mut Rng, code: &Code, word: &[u8], g: usize) -> Vec<u8> {
    let order = rng.order(word.len());
    let [mut low, mut high] = [0, word.len()];
    while low < high {
        let middle = (low + high) / 2;
        if count(code, &lost_at(word, &order[..middle])) < g {
            low = middle + 1;
        } else {
            high = middle;
        }
    }
    lost_at(word, &order[..low])
}

/// The word with a symbol that was read turned over, so that it is inconsistent.
pub fn contradicted(rng: &mut Rng, code: &Code, word: &[u8]) -> Vec<u8> {
    let read: Vec<usize> = (0..word.len()).filter(|&j| word[j] != ERASED).collect();
    loop {
        let mut other = word.to_vec();
        other[rng.pick(&read)] ^= 1;
        if code.decoded(&other).code == INCONSISTENT {
            return other;
        }
    }
}

/// The counts of unknowns that are asked for, as far as N allows them.
pub fn borders(n: usize) -> Vec<usize> {
    let mut list = vec![0, 1];
    for middle in [64, 128, 192] {
        list.extend(middle - 2..=middle + 2);
    }
    list.extend(LARGEST_CEILING - 3..=LARGEST_CEILING);
    list.retain(|&g| g <= 1 << n);
    list
}

/// Counts above the largest ceiling, as far as N allows them.
pub fn too_many(n: usize) -> Vec<usize> {
    let mut list = vec![LARGEST_CEILING + 1, 1 << n];
    list.retain(|g| (LARGEST_CEILING + 1..=1 << n).contains(g));
    list.dedup();
    list
}

/// The verdicts by their codes.
const UNIQUE: u16 = 0;
const AMBIGUOUS: u16 = 1;
const INCONSISTENT: u16 = 2;

/// Whether words of this verdict are asked for. Unique needs as many equations as unknowns, from
/// symbols that were read and from the check; ambiguous an unknown more than the check ties;
/// inconsistent a symbol that was read.
fn possible(n: usize, r: usize, g: usize, verdict: u16) -> bool {
    match verdict {
        UNIQUE => 2 * g <= (1 << n) + r,
        AMBIGUOUS => g > r,
        _ => g < 1 << n,
    }
}

/// Dimensions that are asked for.
const DIMENSIONS: [usize; 9] = [1, 62, 63, 64, 65, 128, 192, 254, 255];

/// Those of them that g unknowns can be left with: the check ties r at least, and with it the
/// symbols that were read tie so many at most, but for a few; and the largest dimension.
fn dimensions(n: usize, r: usize, g: usize) -> Vec<usize> {
    let mut list = DIMENSIONS.to_vec();
    list.retain(|d| d + r <= g && 2 * g + 4 <= d + r + (1 << n));
    list.push(g - r);
    list
}

/// A check length and a verdict.
#[derive(Clone, Copy)]
pub struct Case {
    pub r: usize,
    pub verdict: u16,
}

/// Every check length and verdict that is possible with g unknowns.
pub fn cases(n: usize, g: usize) -> Vec<Case> {
    let verdicts = [UNIQUE, AMBIGUOUS, INCONSISTENT];
    let all = CHECKS
        .into_iter()
        .flat_map(|r| verdicts.map(|verdict| Case { r, verdict }));
    all.filter(|case| possible(n, case.r, g, case.verdict))
        .collect()
}

/// A code, and a word of g unknowns that gets this verdict, if ambiguous with the dimension whose
/// turn it is.
pub fn word(rng: &mut Rng, n: usize, g: usize, case: Case, turn: usize) -> (Code, Vec<u8>) {
    let Case { r, verdict } = case;
    let d = match verdict {
        AMBIGUOUS => {
            let list = dimensions(n, r, g);
            list[turn % list.len()]
        }
        _ => 0,
    };
    loop {
        let (code, word) = attempt(rng, n, g, case, d);
        let answer = code.decoded(&word);
        if (answer.code, usize::from(answer.d)) == (verdict, d) {
            return (code, word);
        }
    }
}

/// A code and a word of g unknowns that may get the verdict.
fn attempt(rng: &mut Rng, n: usize, g: usize, case: Case, d: usize) -> (Code, Vec<u8>) {
    let Case { r, verdict } = case;
    let length = 1 << n;
    // unique words lose no symbol in vain
    let spare = (length - g) / if verdict == UNIQUE { 16 } else { 4 };
    let lost = g + rng.below(spare.min(length - 2 * g.min(length / 2)) + 1);
    let mut order = rng.order(length);
    if verdict == INCONSISTENT {
        order.retain(|&place| place != length - 1);
        order.push(length - 1);
    }
    let open = open::open_positions(&lost_at(&vec![0; length], &order[..lost]));
    let drawn = rng.order(length);
    let [open, mut closed] = [true, false].map(|is| -> Vec<usize> {
        let those = drawn.iter().filter(|&&i| open[i] == is);
        those.copied().collect()
    });
    // an inconsistent word has read its last symbol, which is its last bit, and that is given
    if verdict == INCONSISTENT {
        closed.retain(|&i| i != length - 1);
        closed.insert(0, length - 1);
    }
    // as many equations as leave d unknowns, or some more; K stays above r
    let needed = match verdict {
        AMBIGUOUS => (g - d).saturating_sub(r),
        _ => g + 8,
    };
    let most = closed.len() - (r + 1).saturating_sub(g).min(closed.len());
    let equations = needed.min(most);
    let mut records = vec![Record::default(); length];
    for &i in open[g..].iter().chain(&closed[..equations]) {
        // where nothing is to be tied, no bit is named
        let plain = match verdict {
            AMBIGUOUS => g == d + r,
            INCONSISTENT => g == 0 || i == length - 1 || rng.bit(),
            _ => g == 0,
        };
        records[i] = Record {
            frozen: true,
            constant: rng.bit(),
            named: (0..i).filter(|_| !plain && rng.bit()).collect(),
        };
    }
    let sheet = bytes(&records);
    let code = Code { n, r, sheet };
    let mut word = code.codeword(rng);
    if verdict == INCONSISTENT {
        let turned = [rng.within(lost, length - 1), length - 1];
        word[order[rng.pick(&turned)]] ^= 1;
    }
    let word = lost_at(&word, &order[..lost]);
    (code, word)
}
