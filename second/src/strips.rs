// Whole strips: one dense system over all N bits of u for every lane at once. All lanes lost the same
// symbols, so their equations have the same unknowns, and a value is one bit for each lane.

use crate::dense::{sheet_equations, symbol};
use crate::limits::{CARTRIDGE_BYTES, LANES};
use crate::sheet::Sheet;

/// One bit for each lane: lane t is bit t mod 64 of word t div 64.
pub type Lanes = [u64; LANES / 64];

/// No lane.
const NONE: Lanes = [0; LANES / 64];

/// The lanes of a cartridge's record: t is bit t mod 8 of byte t div 8.
pub fn lanes(record: &[u8]) -> Lanes {
    let mut lanes = NONE;
    for (t, &byte) in record.iter().enumerate() {
        lanes[t / 8] |= u64::from(byte) << (8 * (t % 8));
    }
    lanes
}

/// The record of these lanes.
pub fn record(lanes: &Lanes) -> Vec<u8> {
    lanes.iter().flat_map(|word| word.to_le_bytes()).collect()
}

/// The first of these lanes.
pub fn first(lanes: &Lanes) -> Option<usize> {
    (0..LANES).find(|t| lanes[t / 64] >> (t % 64) & 1 == 1)
}

/// The XOR of the marked bits of u is the value, in each lane its own.
#[derive(Clone)]
struct Equation {
    unknowns: Vec<bool>,
    values: Lanes,
}

impl Equation {
    fn add(&mut self, other: &Equation) {
        for (mine, theirs) in self.unknowns.iter_mut().zip(&other.unknowns) {
            *mine ^= theirs;
        }
        for (mine, theirs) in self.values.iter_mut().zip(&other.values) {
            *mine ^= theirs;
        }
    }
}

/// Every frozen rule and check equation, with the same value in every lane, and every symbol that
/// was read.
fn equations(sheet: &Sheet, r: usize, strip: &[u8], lost: &[u8]) -> Vec<Equation> {
    let of_sheet = sheet_equations(sheet, r).into_iter();
    let mut list: Vec<Equation> = of_sheet
        .map(|(unknowns, value)| Equation {
            unknowns,
            values: if value { [u64::MAX; LANES / 64] } else { NONE },
        })
        .collect();
    let records = strip.chunks(CARTRIDGE_BYTES).zip(lost).enumerate();
    for (j, (record, _)) in records.filter(|(_, (_, &mark))| mark == 0) {
        list.push(Equation {
            unknowns: symbol(sheet.length(), j),
            values: lanes(record),
        });
    }
    list
}

/// The equations in reduced form.
struct Reduced {
    /// For each bit of u, the equation that has it alone of all, if there is one.
    owners: Vec<Option<Equation>>,
    /// The lanes in which an equation is left that says 0 = 1.
    contradicted: Lanes,
}

/// Gauss-Jordan: each bit of u in turn is cleared from every equation but one that has it.
fn reduced(length: usize, mut left: Vec<Equation>) -> Reduced {
    let mut owners: Vec<Option<Equation>> = Vec::new();
    for i in 0..length {
        let has = left.iter().position(|equation| equation.unknowns[i]);
        let owner = has.map(|at| left.swap_remove(at));
        if let Some(owner) = &owner {
            let others = left.iter_mut().chain(owners.iter_mut().flatten());
            for other in others.filter(|other| other.unknowns[i]) {
                other.add(owner);
            }
        }
        owners.push(owner);
    }
    let mut contradicted = NONE;
    for equation in left {
        for (all, values) in contradicted.iter_mut().zip(equation.values) {
            *all |= values;
        }
    }
    Reduced {
        owners,
        contradicted,
    }
}

impl Reduced {
    /// The XOR of the marked bits of u where it is the same in every solution, in each lane its own:
    /// with the owners of all marked bits added, no bit is left.
    fn fixed(&self, unknowns: Vec<bool>) -> Option<Lanes> {
        let mut sum = Equation {
            unknowns: unknowns.clone(),
            values: NONE,
        };
        for (owner, _) in (self.owners.iter().zip(unknowns)).filter(|(_, marked)| *marked) {
            if let Some(owner) = owner {
                sum.add(owner);
            }
        }
        (!sum.unknowns.contains(&true)).then_some(sum.values)
    }
}

/// What is found of a strip of which no lane is inconsistent.
#[derive(Clone, Debug, PartialEq, Eq)]
pub struct Repaired {
    /// In each lane 2 to this codewords agree.
    pub d: usize,
    /// The record of each cartridge that is settled.
    pub records: Vec<Option<Vec<u8>>>,
}

/// The cartridges of a strip, or its first inconsistent lane. The records of lost ones are not looked
/// at.
pub fn repaired(sheet: &Sheet, r: usize, strip: &[u8], lost: &[u8]) -> Result<Repaired, usize> {
    let length = sheet.length();
    let system = reduced(length, equations(sheet, r, strip, lost));
    if let Some(lane) = first(&system.contradicted) {
        return Err(lane);
    }
    Ok(Repaired {
        d: system.owners.iter().filter(|owner| owner.is_none()).count(),
        records: (0..length)
            .map(|j| Some(record(&system.fixed(symbol(length, j))?)))
            .collect(),
    })
}
