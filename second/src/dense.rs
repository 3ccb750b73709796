// The decoder by one dense system over all N bits of u: every frozen rule, every check
// equation and every unerased symbol is one equation.

use crate::check::{checked_sequence, remainder};
use crate::code::{takes_part, Agreeing, ERASED};
use crate::sheet::Sheet;
use crate::system::{unit, System};

/// The bits of u whose XOR is x_j.
pub fn symbol(length: usize, j: usize) -> Vec<bool> {
    (0..length).map(|i| takes_part(i, j)).collect()
}

/// The check equations, each over the bits of u with its value: bit t of the remainder is zero.
fn check_equations(sheet: &Sheet, r: usize) -> Vec<(Vec<bool>, bool)> {
    let k = sheet.k();
    let none = remainder(&checked_sequence(&vec![false; k], r), r);
    let mut equations: Vec<(Vec<bool>, bool)> = none
        .iter()
        .map(|&bit| (vec![false; sheet.length()], bit))
        .collect();
    for (t, i) in sheet.free().into_iter().enumerate() {
        let one = remainder(&checked_sequence(&unit(k, t), r), r);
        for (row, equation) in equations.iter_mut().enumerate() {
            equation.0[i] = one[row] ^ none[row];
        }
    }
    equations
}

/// The equations of a sheet, each over the bits of u with its value: every frozen rule, then the
/// check.
pub fn sheet_equations(sheet: &Sheet, r: usize) -> Vec<(Vec<bool>, bool)> {
    let length = sheet.length();
    let mut equations = Vec::new();
    for (i, record) in sheet.records.iter().enumerate() {
        if record.frozen {
            let mut unknowns = unit(length, i);
            for &j in &record.named {
                unknowns[j] = true;
            }
            equations.push((unknowns, record.constant));
        }
    }
    equations.extend(check_equations(sheet, r));
    equations
}

/// The system of a word, or nothing where its equations contradict each other.
fn system(sheet: &Sheet, r: usize, word: &[u8]) -> Option<System> {
    let length = sheet.length();
    let mut system = System::new(length);
    let mut consistent = true;
    for (unknowns, value) in sheet_equations(sheet, r) {
        consistent &= system.add(&unknowns, value);
    }
    for (j, &value) in word.iter().enumerate() {
        if value != ERASED {
            consistent &= system.add(&symbol(length, j), value == 1);
        }
    }
    consistent.then_some(system)
}

/// The solution found by giving u_0, u_1, .. in turn the wanted bit wherever it is not fixed.
fn greedy(mut system: System, length: usize, wanted: bool) -> Vec<bool> {
    (0..length)
        .map(|i| {
            let bit = unit(length, i);
            system.fixed(&bit).unwrap_or_else(|| {
                system.add(&bit, wanted);
                wanted
            })
        })
        .collect()
}

/// The agreeing codewords of a word, if any.
pub fn agreeing(sheet: &Sheet, r: usize, word: &[u8]) -> Option<Agreeing> {
    let length = sheet.length();
    let system = system(sheet, r, word)?;
    Some(Agreeing {
        d: system.dimension(),
        settled: (0..length)
            .map(|j| system.fixed(&symbol(length, j)).map_or(ERASED, u8::from))
            .collect(),
        first: greedy(system.clone(), length, false),
        last: greedy(system, length, true),
    })
}
