// Open positions from their definition, and the counts g and m that stand on them.
// Two vectors as the definition asks exist exactly when their difference does: zero before i,
// 1 at i, with a transform that is zero at every unerased place.

use crate::code::ERASED;
use crate::dense::symbol;
use crate::sheet::Sheet;
use crate::system::{unit, System};

/// For each position, whether the losses of this word leave it open.
pub fn open_positions(word: &[u8]) -> Vec<bool> {
    let length = word.len();
    let mut differences = System::new(length);
    for j in (0..length).filter(|&j| word[j] != ERASED) {
        differences.add(&symbol(length, j), false);
    }
    (0..length)
        .map(|i| {
            let open = differences.fixed(&unit(length, i)).is_none();
            differences.add(&unit(length, i), false);
            open
        })
        .collect()
}

/// g, the open free positions, and m, the frozen positions that are not open plus r.
pub fn counts(sheet: &Sheet, r: usize, open: &[bool]) -> (usize, usize) {
    let count = |frozen: bool, is_open: bool| {
        (sheet.records.iter().zip(open))
            .filter(|(record, &open)| record.frozen == frozen && open == is_open)
            .count()
    };
    (count(false, true), count(true, false) + r)
}
