// What the sample lots and the sample strips share: a drawn sheet with dynamic frozen bits, and what
// their READMEs say of a sheet and of the lost cartridges.

use crate::layout::Record;
use crate::make::bytes;
use crate::rng::Rng;
use crate::sheet::Sheet;

/// Which positions are free.
#[derive(Clone, Copy, Debug, PartialEq, Eq)]
pub enum Positions {
    /// Those that are best where half of the symbols are lost: few are open.
    Best,
    /// Any: many are open, and the frozen ones have to tie them.
    Drawn,
}

/// How likely u_i is to stay unknown when each symbol is lost with chance z and all before u_i is
/// known, for a block of 2^n: the left half of a block has the worse of the two channels.
fn unknown(z: f64, n: usize) -> Vec<f64> {
    if n == 0 {
        return vec![z];
    }
    [unknown(2.0 * z - z * z, n - 1), unknown(z * z, n - 1)].concat()
}

/// For each of 2^n positions, whether it is one of the free ones.
fn free_positions(rng: &mut Rng, n: usize, free: usize, positions: Positions) -> Vec<bool> {
    let length = 1 << n;
    let order = match positions {
        Positions::Best => {
            let unknown = unknown(0.5, n);
            let mut best: Vec<usize> = (0..length).collect();
            best.sort_by(|&i, &j| unknown[i].total_cmp(&unknown[j]));
            best
        }
        Positions::Drawn => rng.order(length),
    };
    (0..length).map(|i| order[..free].contains(&i)).collect()
}

/// A frozen record: plain while no free position stands before it, and then one time in five;
/// else it names one free position and up to three others of any kind. One constant in four is 1.
fn frozen_record(rng: &mut Rng, before: &[bool]) -> Record {
    let free: Vec<usize> = (0..before.len()).filter(|&j| before[j]).collect();
    let mut named = Vec::new();
    if !free.is_empty() && rng.below(5) > 0 {
        named.push(rng.pick(&free));
        for _ in 0..rng.below(4) {
            named.push(rng.below(before.len()));
        }
    }
    named.sort();
    named.dedup();
    Record {
        frozen: true,
        constant: rng.below(4) == 0,
        named,
    }
}

/// A sheet of 2^n positions with so many free ones.
pub fn sheet(rng: &mut Rng, n: usize, free: usize, positions: Positions) -> Vec<u8> {
    let free = free_positions(rng, n, free, positions);
    let records: Vec<Record> = (0..free.len())
        .map(|i| match free[i] {
            true => Record::default(),
            false => frozen_record(rng, &free[..i]),
        })
        .collect();
    bytes(&records)
}

/// Positions, rising, with this between them.
pub fn rising(positions: &[usize], between: &str) -> String {
    let mut positions = positions.to_vec();
    positions.sort();
    let positions: Vec<String> = positions.iter().map(usize::to_string).collect();
    positions.join(between)
}

/// What kinds of record a sheet holds, in words.
pub fn kinds(sheet: &Sheet) -> String {
    let frozen: Vec<&Record> = sheet.records.iter().filter(|r| r.frozen).collect();
    let plain = frozen.iter().filter(|r| r.named.is_empty()).count();
    let ones = frozen.iter().filter(|r| r.constant).count();
    format!(
        "{} positions free, {plain} plain frozen, {} frozen by earlier positions; \
         {ones} of the frozen have the constant 1",
        sheet.k(),
        frozen.len() - plain,
    )
}
