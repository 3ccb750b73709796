// The same answers for small N by trying every u, and open positions by trying every pair.
// Nothing is solved: all is read off the list.

use crate::code::{agrees, keeps, transform, Agreeing, ERASED};
use crate::sheet::Sheet;

/// The largest N for which every u is tried.
pub const LARGEST_TRIED: usize = 8;

/// Every u of this length, with its x.
fn every(length: usize) -> Vec<(Vec<bool>, Vec<bool>)> {
    assert!(length <= LARGEST_TRIED);
    (0..1usize << length)
        .map(|t| {
            let u: Vec<bool> = (0..length).map(|i| t >> i & 1 == 1).collect();
            let x = transform(&u);
            (u, x)
        })
        .collect()
}

/// Every u that keeps the rules and the check with its codeword, in the order of u.
pub fn every_codeword(sheet: &Sheet, r: usize) -> Vec<(Vec<bool>, Vec<bool>)> {
    let mut list = every(sheet.length());
    list.retain(|(u, _)| keeps(sheet, r, u));
    list.sort();
    list
}

/// The agreeing codewords of a word, if any. Vectors of bools compare from u_0 on, 0 before 1.
pub fn agreeing(sheet: &Sheet, r: usize, word: &[u8]) -> Option<Agreeing> {
    let list: Vec<(Vec<bool>, Vec<bool>)> = every(sheet.length())
        .into_iter()
        .filter(|(u, x)| keeps(sheet, r, u) && agrees(x, word))
        .collect();
    let (first, _) = list.iter().min_by_key(|(u, _)| u)?;
    let (last, _) = list.iter().max_by_key(|(u, _)| u)?;
    assert!(list.len().is_power_of_two());
    let settled = (0..sheet.length())
        .map(|j| {
            let value = list[0].1[j];
            let all = list.iter().all(|(_, x)| x[j] == value);
            if all {
                u8::from(value)
            } else {
                ERASED
            }
        })
        .collect();
    Some(Agreeing {
        d: list.len().ilog2() as usize,
        settled,
        first: first.clone(),
        last: last.clone(),
    })
}

/// For each position i, whether two vectors exist, equal before i, different at i,
/// whose x are equal at every unerased place: by all pairs.
pub fn open_positions(word: &[u8]) -> Vec<bool> {
    let all = every(word.len());
    let mut open = vec![false; word.len()];
    for (u, x) in &all {
        for (v, y) in &all {
            if (0..word.len()).all(|j| word[j] == ERASED || x[j] == y[j]) {
                if let Some(i) = (0..word.len()).find(|&i| u[i] != v[i]) {
                    open[i] = true;
                }
            }
        }
    }
    open
}
