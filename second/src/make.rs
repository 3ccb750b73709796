// Makes sheets as bytes: ones that keep every rule, at random, and one fault of a named kind put
// into a record; and words: codewords of any payload, their losses, and words that keep the check
// only as it could be misread. The requests and the tests are made from these.

use crate::answer::Answer;
use crate::calls;
use crate::check::remainder;
use crate::code::{filled, transform, ERASED};
use crate::layout::{Layout, Record, NEW};
use crate::rng::Rng;
use crate::sheet::Sheet;
use crate::system::{unit, System};

/// The bytes of a sheet.
pub fn bytes(records: &[Record]) -> Vec<u8> {
    NEW.write(records)
}

/// Frozen bits with random constants or all 0, with random masks or all empty.
#[derive(Clone, Copy, Debug, PartialEq, Eq)]
pub struct Style {
    pub constants: bool,
    pub dynamic: bool,
}

pub const STYLES: [Style; 4] = [
    Style {
        constants: false,
        dynamic: false,
    },
    Style {
        constants: true,
        dynamic: false,
    },
    Style {
        constants: false,
        dynamic: true,
    },
    Style {
        constants: true,
        dynamic: true,
    },
];

/// A sheet of N records that keep every rule, with K free positions, drawn at random: a good one
/// where K is at least 1.
pub fn good(rng: &mut Rng, length: usize, k: usize, style: Style) -> Vec<u8> {
    bytes(&good_records(rng, length, k, style))
}

/// The records of such a sheet.
pub fn good_records(rng: &mut Rng, length: usize, k: usize, style: Style) -> Vec<Record> {
    let order = rng.order(length);
    frozen_at(rng, length, &order[k..], style)
}

/// N records that keep every rule, frozen at these positions.
pub fn frozen_at(rng: &mut Rng, length: usize, positions: &[usize], style: Style) -> Vec<Record> {
    let mut records = vec![Record::default(); length];
    for &i in positions {
        let sparse = rng.bit();
        records[i] = Record {
            frozen: true,
            constant: style.constants && rng.bit(),
            named: (0..i)
                .filter(|_| style.dynamic && rng.bit() && (!sparse || rng.below(4) == 0))
                .collect(),
        };
    }
    records
}

/// Every record that place i may hold.
fn every_record(i: usize) -> Vec<Record> {
    let mut list = vec![Record::default()];
    for constant in [false, true] {
        for mask in 0..1 << i {
            list.push(Record {
                frozen: true,
                constant,
                named: (0..i).filter(|j| mask >> j & 1 == 1).collect(),
            });
        }
    }
    list
}

/// Every sheet of N records that keep every rule, K = 0 too, for N of 1, 2 and 4.
pub fn every_sheet(length: usize) -> Vec<Vec<Record>> {
    let mut list = vec![Vec::new()];
    for i in 0..length {
        list = (list.iter())
            .flat_map(|before: &Vec<Record>| {
                every_record(i)
                    .into_iter()
                    .map(|record| [&before[..], &[record]].concat())
            })
            .collect();
    }
    list
}

/// Every word of so many symbols, each below the bound.
pub fn every_word(length: usize, bound: usize) -> Vec<Vec<u8>> {
    (0..bound.pow(length as u32))
        .map(|t| {
            (0..length)
                .map(|j| (t / bound.pow(j as u32) % bound) as u8)
                .collect()
        })
        .collect()
}

pub fn bits(rng: &mut Rng, length: usize) -> Vec<u8> {
    (0..length).map(|_| rng.below(2) as u8).collect()
}

/// Bits at random, of which the first, or more from it on, are 0; at least one bit.
pub fn zeros_first(rng: &mut Rng, length: usize) -> Vec<u8> {
    let mut bits = bits(rng, length);
    bits[..rng.within(1, length)].fill(0);
    bits
}

/// The codeword of a payload.
pub fn codeword(n: usize, sheet: &[u8], r: usize, payload: &[u8]) -> Vec<u8> {
    let mut word = vec![0; 1 << n];
    let answer = calls::encode(n, sheet, r, payload, &mut word);
    assert_eq!(answer, Answer::code(0));
    word
}

/// The codeword of a payload drawn at random.
pub fn any_codeword(rng: &mut Rng, n: usize, sheet: &[u8], r: usize) -> Vec<u8> {
    let k = Sheet::read(n, sheet, r).expect("a good sheet").k();
    codeword(n, sheet, r, &bits(rng, k - r))
}

/// The word of the one u that keeps every rule of a sheet and holds these K free bits.
pub fn word_of(sheet: &Sheet, free_bits: &[bool]) -> Vec<u8> {
    let word = transform(&filled(sheet, free_bits));
    word.into_iter().map(u8::from).collect()
}

/// The word of the one u that keeps every rule of a sheet with no free position.
pub fn only_word(n: usize, sheet: &[u8]) -> Vec<u8> {
    let records = NEW.read(n, sheet).expect("a sheet that keeps every rule");
    word_of(&Sheet { records }, &[])
}

/// Ways to misread the check, for r of 6 and 11.
#[derive(Clone, Copy, Debug, PartialEq, Eq, PartialOrd, Ord)]
pub enum Misreading {
    /// No ones, as 01 has it.
    NoOnes,
    /// The r ones behind the free bits.
    OnesBehind,
    /// One 1 too few in front.
    OneTooFew,
    /// No ones in front; the first r free bits turned over.
    TurnedOver,
}

pub const MISREADINGS: [Misreading; 4] = [
    Misreading::NoOnes,
    Misreading::OnesBehind,
    Misreading::OneTooFew,
    Misreading::TurnedOver,
];

impl Misreading {
    /// The sequence that the polynomial would divide.
    pub fn sequence(self, free_bits: &[bool], r: usize) -> Vec<bool> {
        match self {
            Misreading::NoOnes => free_bits.to_vec(),
            Misreading::OnesBehind => [free_bits, &vec![true; r]].concat(),
            Misreading::OneTooFew => [&vec![true; r - 1], free_bits].concat(),
            Misreading::TurnedOver => (free_bits.iter().enumerate())
                .map(|(t, &bit)| bit ^ (t < r))
                .collect(),
        }
    }

    /// Whether the polynomial divides it.
    pub fn keeps(self, free_bits: &[bool], r: usize) -> bool {
        !remainder(&self.sequence(free_bits, r), r).contains(&true)
    }

    /// The payload and the r bits behind it that keep the check so misread: r equations for them.
    pub fn free_bits(self, payload: &[u8], r: usize) -> Vec<bool> {
        let followed_by = |check: Vec<bool>| -> Vec<bool> {
            payload.iter().map(|&bit| bit == 1).chain(check).collect()
        };
        let rest = |check| remainder(&self.sequence(&followed_by(check), r), r);
        let none = rest(vec![false; r]);
        let each: Vec<Vec<bool>> = (0..r).map(|t| rest(unit(r, t))).collect();
        let mut system = System::new(r);
        for (row, &value) in none.iter().enumerate() {
            let unknowns: Vec<bool> = each.iter().map(|one| one[row] ^ value).collect();
            assert!(system.add(&unknowns, value), "one solution");
        }
        let bit = |t| system.fixed(&unit(r, t)).expect("one solution");
        let bits = followed_by((0..r).map(bit).collect());
        assert!(self.keeps(&bits, r), "the check misread");
        bits
    }
}

/// The word with each symbol erased at a chance of `losses` in eight.
pub fn damaged(rng: &mut Rng, word: &[u8], losses: usize) -> Vec<u8> {
    word.iter()
        .map(|&symbol| {
            if rng.below(8) < losses {
                ERASED
            } else {
                symbol
            }
        })
        .collect()
}

/// The kinds of fault a record can have.
#[derive(Clone, Copy, Debug, PartialEq, Eq)]
pub enum Fault {
    KindTwo,
    KindMost,
    KindAny,
    ConstantTwo,
    ConstantAny,
    ByteTwo,
    ByteThree,
    FreeConstant,
    FreeMask,
    NamesItself,
    NamesLater,
    NamesBeyond,
}

pub const FAULTS: [Fault; 12] = [
    Fault::KindTwo,
    Fault::KindMost,
    Fault::KindAny,
    Fault::ConstantTwo,
    Fault::ConstantAny,
    Fault::ByteTwo,
    Fault::ByteThree,
    Fault::FreeConstant,
    Fault::FreeMask,
    Fault::NamesItself,
    Fault::NamesLater,
    Fault::NamesBeyond,
];

/// The faults that record i of N can have: a later position, or one past N, may not exist.
pub fn faults_at(layout: Layout, length: usize, i: usize) -> Vec<Fault> {
    FAULTS
        .into_iter()
        .filter(|fault| match fault {
            Fault::NamesLater => i + 1 < length,
            Fault::NamesBeyond => length < 8 * layout.mask_bytes,
            _ => true,
        })
        .collect()
}

/// Those of them that leave a frozen record frozen.
pub fn frozen_faults_at(layout: Layout, length: usize, i: usize) -> Vec<Fault> {
    let others = [
        Fault::KindTwo,
        Fault::KindMost,
        Fault::KindAny,
        Fault::FreeConstant,
        Fault::FreeMask,
    ];
    let mut faults = faults_at(layout, length, i);
    faults.retain(|fault| !others.contains(fault));
    faults
}

/// Puts a fault into record i of a sheet that keeps every rule.
pub fn spoil(rng: &mut Rng, layout: Layout, sheet: &mut [u8], i: usize, fault: Fault) {
    let size = layout.record_bytes();
    let length = sheet.len() / size;
    let names = 8 * layout.mask_bytes;
    let record = &mut sheet[size * i..][..size];
    match fault {
        Fault::FreeConstant | Fault::FreeMask => record.fill(0),
        Fault::NamesItself | Fault::NamesLater | Fault::NamesBeyond => record[0] = 1,
        _ => {}
    }
    match fault {
        Fault::KindTwo => record[0] = 2,
        Fault::KindMost => record[0] = 255,
        Fault::KindAny => record[0] = rng.within(2, 255) as u8,
        Fault::ConstantTwo => record[1] = 2,
        Fault::ConstantAny => record[1] = rng.within(2, 255) as u8,
        Fault::ByteTwo => record[2] = rng.within(1, 255) as u8,
        Fault::ByteThree => record[3] = rng.within(1, 255) as u8,
        Fault::FreeConstant => record[1] = 1,
        Fault::FreeMask => layout.name(sheet, i, rng.below(names)),
        Fault::NamesItself => layout.name(sheet, i, i),
        Fault::NamesLater => layout.name(sheet, i, rng.within(i + 1, length - 1)),
        Fault::NamesBeyond => layout.name(sheet, i, rng.within(length, names - 1)),
    }
}
