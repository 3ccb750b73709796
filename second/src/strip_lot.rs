// The sample strips: records of 64 bytes on 32 cartridges, some of which are lost to all strips. One
// strip has a bit turned over and the last is cut off. The folder explains itself by its README.

use crate::calls::{repaired_bytes, strip_answers, Strips};
use crate::files::File;
use crate::limits::{CARTRIDGE_BYTES, HEADER_BYTES};
use crate::rng::Rng;
use crate::sample::{kinds, rising, sheet, Positions};
use crate::sheet::Sheet;
use crate::show::{number, verdict};
use crate::words::{put_garbage, Codewords};

/// N is 2 to this: as many symbols as cartridges.
const EXPONENT: usize = 5;
const CARTRIDGES: usize = 1 << EXPONENT;
const FREE: usize = 20;
const CHECK: usize = 6;
const CEILING: usize = 20;
const SEED: u64 = 513;

/// How many cartridges are lost, and how many when some more are.
const LOST: usize = 11;
const MORE_LOST: usize = 15;

/// The strips, the one with a bit turned over, and how much is left of the last.
const STRIPS: usize = 6;
const TURNED: usize = 4;
const CUT_OFF: usize = 1000;

/// The lane that is turned over, on the cartridge that is lost last of all.
const LANE: usize = 77;

/// A sheet, a choice, marks and strips as the programs read them.
pub struct SampleStrips {
    pub sheet: Vec<u8>,
    pub choice: Vec<u8>,
    pub strips: Vec<u8>,
    /// The cartridges in the order in which they are lost.
    order: Vec<usize>,
}

impl SampleStrips {
    pub fn make() -> SampleStrips {
        let mut rng = Rng::new(SEED);
        let sheet = sheet(&mut rng, EXPONENT, FREE, Positions::Best);
        let mut sample = SampleStrips {
            order: rng.order(CARTRIDGES),
            choice: vec![CHECK as u8, CEILING as u8],
            strips: Vec::new(),
            sheet,
        };
        let codewords = Codewords::new(EXPONENT, &sample.sheet, CHECK).expect("a good sheet");
        for number in 1..=STRIPS {
            let mut strip = codewords.strip(&mut rng);
            put_garbage(&mut rng, &mut strip, &sample.lost());
            match number {
                TURNED => strip[CARTRIDGE_BYTES * sample.turned() + LANE / 8] ^= 1 << (LANE % 8),
                STRIPS => strip.truncate(CUT_OFF),
                _ => {}
            }
            sample.strips.extend(strip);
        }
        sample
    }

    /// The cartridge on which a bit is turned over.
    fn turned(&self) -> usize {
        self.order[CARTRIDGES - 1]
    }

    /// The marks of the first so many lost cartridges.
    fn marks(&self, lost: usize) -> Vec<u8> {
        (0..CARTRIDGES)
            .map(|j| u8::from(self.order[..lost].contains(&j)))
            .collect()
    }

    /// The marks of the lost cartridges.
    pub fn lost(&self) -> Vec<u8> {
        self.marks(LOST)
    }

    /// The marks when some more are lost.
    pub fn more_lost(&self) -> Vec<u8> {
        self.marks(MORE_LOST)
    }

    /// The answers to all strips under these marks.
    pub fn answers(&self, lost: &[u8]) -> Strips {
        strip_answers(&self.sheet, &self.choice, lost, &self.strips)
    }

    /// The files of the folder.
    pub fn files(&self) -> Vec<File> {
        let file = |name, bytes| File::new("strips", name, bytes);
        vec![
            file("sheet.bin", self.sheet.clone()),
            file("choice.bin", self.choice.clone()),
            file("lost.bin", self.lost()),
            file("strips.bin", self.strips.clone()),
            file("README.md", self.readme().into_bytes()),
        ]
    }

    /// What was done to a strip, numbered from 1, in words.
    fn done(&self, number: usize) -> String {
        match number {
            TURNED => format!("lane {LANE} turned over on cartridge {}", self.turned()),
            STRIPS => format!("cut off after {CUT_OFF} bytes"),
            _ => "nothing more".to_string(),
        }
    }

    /// The table of the answers under these marks.
    fn table(&self, lost: &[u8]) -> String {
        let mut table = "| strip | what was done to it | answer | lane | g | m | d |\n\
                         |---|---|---|---|---|---|---|\n"
            .to_string();
        let records = self.answers(lost).records;
        for (at, record) in records.chunks(HEADER_BYTES).enumerate() {
            let [code, place, g, m, d] = [0, 1, 2, 3, 4].map(|at| number(record, at));
            let (said, lane) = match code {
                0 | 1 => (verdict(code), String::new()),
                2 => (verdict(code), place.to_string()),
                14 => (
                    format!("{}: the strip is cut off", verdict(code)),
                    String::new(),
                ),
                code => panic!("no strip of these answers {code}"),
            };
            let counts = match code {
                0..=2 => format!("{g} | {m} | {d}"),
                _ => " |  | ".to_string(),
            };
            let done = self.done(at + 1);
            table += &format!("| {} | {done} | {said} | {lane} | {counts} |\n", at + 1);
        }
        table
    }

    /// How many strips get each kind of answer under these marks, in words.
    fn counts(&self, lost: &[u8]) -> String {
        let records = self.answers(lost).records;
        let codes: Vec<u16> = records
            .chunks(HEADER_BYTES)
            .map(|record| number(record, 0))
            .collect();
        let of = |wanted: u16| codes.iter().filter(|&&code| code == wanted).count();
        format!(
            "{} strips: {} whole, {} in part, {} inconsistent, {} refused",
            codes.len(),
            of(0),
            of(1),
            of(2),
            codes.iter().filter(|&&code| code > 2).count(),
        )
    }

    /// The cartridges that are not settled under these marks, by the first strip.
    pub fn unsettled(&self, lost: &[u8]) -> Vec<usize> {
        let repaired = self.answers(lost).repaired;
        let marks = &repaired[CARTRIDGE_BYTES * CARTRIDGES..repaired_bytes(CARTRIDGES)];
        (0..CARTRIDGES).filter(|&j| marks[j] == 1).collect()
    }

    fn readme(&self) -> String {
        let read = Sheet::read(EXPONENT, &self.sheet, CHECK).expect("a good sheet");
        let more = self.more_lost();
        format!(
            "# Sample strips

{STRIPS} strips on {CARTRIDGES} cartridges, end to end. Every cartridge carries a record of \
{CARTRIDGE_BYTES} bytes of each strip. Bit t mod 8 of byte t div 8 of the {CARTRIDGES} records is lane \
t, a word of the code (all counted from 0).

- `sheet.bin`: the code sheet, {kinds}.
- `choice.bin`: check length {CHECK}, ceiling {CEILING}.
- `lost.bin`: a byte for each cartridge, 1 where it is lost.
- `strips.bin`: the strips as they were read, {strip} bytes each; the records of lost cartridges hold \
anything.

The vault lost {LOST} cartridges: {lost}.

## What is to be seen

From the root of the tree:

    bin/repair examples/strips --marks examples/strips/lost.bin < examples/strips/strips.bin > repaired

`repaired` has {part} bytes for each strip: its records, with those of lost cartridges filled in, then a \
mark for each cartridge, 1 where it is not settled and its record is zeros. Where a strip is refused or \
inconsistent they are all 255. Standard error has a line for each strip, and last `{counts}`. The second \
program says the same, and writes the answer records to a file:

    second repair examples/strips examples/strips/lost.bin records < examples/strips/strips.bin > repaired

g: unknowns. m: equations. d: 2 to the d contents of each lane agree. Lane: the first inconsistent one.

{table}
All {LOST} cartridges are settled. With {further} more lost they are not, and last comes `{more_counts}`:

    bin/repair examples/strips {list} < examples/strips/strips.bin > repaired

{more_table}
Of the {MORE_LOST} lost cartridges these are not settled: {unsettled}. Their records are zeros, and \
marked; the others are filled in.

These files are made by `second lots` and held by `second compare-lots`.
",
            kinds = kinds(&read),
            strip = CARTRIDGE_BYTES * CARTRIDGES,
            part = repaired_bytes(CARTRIDGES),
            lost = rising(&self.order[..LOST], ", "),
            counts = self.counts(&self.lost()),
            table = self.table(&self.lost()),
            further = MORE_LOST - LOST,
            list = rising(&self.order[..MORE_LOST], " "),
            more_counts = self.counts(&more),
            more_table = self.table(&more),
            unsettled = rising(&self.unsettled(&more), ", "),
        )
    }
}
