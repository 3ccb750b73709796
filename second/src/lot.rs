// The sample lots: polar codes over 128 and over 512 cartridges with dynamic frozen bits, a choice,
// and the words of a short test log: one symbol of every record stands on each cartridge, so that a
// lost cartridge is the same place in every record. And the first one's sheet in the old layout; the
// sample strips have a module of their own, and what both share has one. Each folder explains itself by
// its README.

use crate::calls::{answer_records, ANSWER_BYTES};
use crate::code::ERASED;
use crate::files::File;
use crate::layout::OLD;
use crate::rng::Rng;
use crate::sample::{kinds, rising, sheet, Positions};
use crate::sheet::Sheet;
use crate::show::{self, refusal, show, verdict, Options};
use crate::strip_lot::SampleStrips;
use crate::words::Codewords;

/// What a lot is made from.
pub struct Plan {
    /// Its folder.
    folder: &'static str,
    title: &'static str,
    seed: u64,
    /// N is 2 to this: as many symbols as cartridges.
    exponent: usize,
    /// K, the number of free positions.
    free: usize,
    positions: Positions,
    check: usize,
    ceiling: usize,
    /// How many cartridges the vault lost.
    lost: usize,
    /// For each record, how many cartridges are lost to it, in the lot's order, and its flaw.
    damage: &'static [(usize, Flaw)],
}

/// What became of a record, besides its losses.
#[derive(Clone, Copy, Debug, PartialEq, Eq)]
enum Flaw {
    None,
    /// A symbol that was read is turned over.
    Turned,
    /// A symbol that was read holds this, which is no symbol.
    Strange(u8),
    /// The word ends after so many symbols.
    CutOff(usize),
}

/// The lot on 128 cartridges.
pub const LOT: Plan = Plan {
    folder: "lot",
    title: "A sample lot",
    seed: 500,
    exponent: 7,
    free: 64,
    positions: Positions::Best,
    check: 11,
    ceiling: 20,
    lost: 56,
    damage: &[
        (0, Flaw::None),
        (0, Flaw::None),
        (1, Flaw::None),
        (9, Flaw::None),
        (56, Flaw::None),
        (56, Flaw::None),
        (56, Flaw::None),
        (56, Flaw::None),
        (56, Flaw::None),
        (56, Flaw::None),
        (56, Flaw::None),
        (56, Flaw::None),
        (63, Flaw::None),
        (72, Flaw::None),
        (73, Flaw::None),
        (81, Flaw::None),
        (84, Flaw::None),
        (85, Flaw::None),
        (128, Flaw::None),
        (0, Flaw::Turned),
        (56, Flaw::Turned),
        (56, Flaw::Strange(7)),
        (56, Flaw::None),
        (56, Flaw::None),
        (56, Flaw::CutOff(50)),
    ],
};

/// The lot on 512 cartridges.
pub const LONG: Plan = Plan {
    folder: "long",
    title: "A long sample lot",
    seed: 501,
    exponent: 9,
    free: 256,
    positions: Positions::Drawn,
    check: 11,
    ceiling: 200,
    lost: 180,
    damage: &[
        (0, Flaw::None),
        (1, Flaw::None),
        (60, Flaw::None),
        (127, Flaw::None),
        (130, Flaw::None),
        (180, Flaw::None),
        (180, Flaw::None),
        (180, Flaw::None),
        (180, Flaw::None),
        (240, Flaw::None),
        (260, Flaw::None),
        (264, Flaw::None),
        (265, Flaw::None),
        (310, Flaw::None),
        (350, Flaw::None),
        (391, Flaw::None),
        (392, Flaw::None),
        (512, Flaw::None),
        (0, Flaw::Turned),
        (180, Flaw::Turned),
        (264, Flaw::Turned),
        (180, Flaw::Strange(9)),
        (180, Flaw::None),
        (180, Flaw::CutOff(300)),
    ],
};

/// A sheet, a choice and words as the programs read them.
pub struct Lot {
    plan: Plan,
    pub sheet: Vec<u8>,
    pub choice: Vec<u8>,
    pub words: Vec<Vec<u8>>,
    /// The cartridges in the order in which they are lost.
    order: Vec<usize>,
}

/// The payload of a record of the log: six characters, as in 07FAIL, and a bin in the five bits
/// behind, each with its highest bit first; then zeros.
fn payload(rng: &mut Rng, number: usize, bits: usize) -> Vec<u8> {
    let passed = rng.below(4) > 0;
    let text = format!("{number:02}{}", if passed { "PASS" } else { "FAIL" });
    let bin = if passed { 1 } else { rng.within(2, 31) as u8 };
    let mut payload: Vec<u8> = text.bytes().flat_map(|byte| high_first(byte, 8)).collect();
    payload.extend(high_first(bin, 5));
    payload.resize(bits, 0);
    payload
}

/// The lowest bits of a byte, so many of them, the highest first.
fn high_first(byte: u8, count: usize) -> Vec<u8> {
    (0..count).rev().map(|bit| byte >> bit & 1).collect()
}

impl Lot {
    pub fn make(plan: Plan) -> Lot {
        let mut rng = Rng::new(plan.seed);
        let sheet = sheet(&mut rng, plan.exponent, plan.free, plan.positions);
        let mut lot = Lot {
            order: rng.order(1 << plan.exponent),
            choice: vec![plan.check as u8, plan.ceiling as u8],
            words: Vec::new(),
            sheet,
            plan,
        };
        let codewords = lot.codewords();
        for number in 1..=lot.plan.damage.len() {
            let payload = payload(&mut rng, number, codewords.bits());
            let word = lot.damaged(number, codewords.of(&payload));
            lot.words.push(word);
        }
        lot
    }

    /// N.
    fn cartridges(&self) -> usize {
        1 << self.plan.exponent
    }

    fn read(&self) -> Sheet {
        Sheet::read(self.plan.exponent, &self.sheet, self.plan.check).expect("a good sheet")
    }

    pub fn codewords(&self) -> Codewords {
        let Plan {
            exponent, check, ..
        } = self.plan;
        Codewords::new(exponent, &self.sheet, check).expect("a good sheet")
    }

    /// The place of a record's flaw: no two the same, and none that is lost.
    fn place(&self, number: usize) -> usize {
        self.order[self.cartridges() - number]
    }

    /// What is left of the word of a record, numbered from 1.
    fn damaged(&self, number: usize, mut word: Vec<u8>) -> Vec<u8> {
        let (lost, flaw) = self.plan.damage[number - 1];
        for &j in &self.order[..lost] {
            word[j] = ERASED;
        }
        match flaw {
            Flaw::None => {}
            Flaw::Turned => word[self.place(number)] ^= 1,
            Flaw::Strange(value) => word[self.place(number)] = value,
            Flaw::CutOff(symbols) => word.truncate(symbols),
        }
        word
    }

    /// The answer records of all words.
    pub fn answers(&self) -> Vec<u8> {
        answer_records(&self.sheet, &self.choice, &self.words.concat())
    }

    /// The sheet in the old layout.
    pub fn old_sheet(&self) -> Vec<u8> {
        OLD.write(&self.read().records)
    }

    /// The files of the lot's folder.
    fn files(&self) -> Vec<File> {
        let file = |name, bytes| File::new(self.plan.folder, name, bytes);
        vec![
            file("sheet.bin", self.sheet.clone()),
            file("choice.bin", self.choice.clone()),
            file("words.bin", self.words.concat()),
            file("README.md", self.readme().into_bytes()),
        ]
    }

    /// What was done to a record, in words.
    fn done(&self, number: usize) -> String {
        let (lost, flaw) = self.plan.damage[number - 1];
        let all = self.plan.lost;
        let losses = match lost {
            0 => "nothing lost".to_string(),
            1 => "one cartridge lost".to_string(),
            _ if lost == all => format!("the {all} cartridges lost"),
            _ if lost == self.cartridges() => "every cartridge lost".to_string(),
            _ if lost < all => format!("{lost} cartridges lost"),
            _ => format!("the {all} cartridges and {} more lost", lost - all),
        };
        let place = self.place(number);
        match flaw {
            Flaw::None => losses,
            Flaw::Turned => format!("{losses}, symbol {place} turned over"),
            Flaw::Strange(value) => format!("{losses}, symbol {place} made a {value}"),
            Flaw::CutOff(symbols) => format!("{losses}, cut off after {symbols} symbols"),
        }
    }

    fn readme(&self) -> String {
        let answers = self.answers();
        let rows: String = (answers.chunks(ANSWER_BYTES).enumerate())
            .map(|(at, record)| row(at + 1, &self.done(at + 1), record))
            .collect();
        let shown = show(&answers, &Options::default());
        let (_, counts) = shown.split_once("\n\n").expect("an empty line");
        let counts: String = counts.lines().map(|line| format!("    {line}\n")).collect();
        format!(
            "# {title}

A test log of {records} records on {cartridges} cartridges. Symbol j of every record stands on \
cartridge j (all counted from 0), so a lost cartridge is the same place in every record it is lost to.

- `sheet.bin`: the code sheet, {kinds}.
- `choice.bin`: check length {check}, ceiling {ceiling}.
- `words.bin`: the words as they were read, {cartridges} bytes each: 0, 1, or 2 where the cartridge is lost.

The vault lost {count} cartridges: {lost}. The first records were read before that, and some had further losses.

## What is to be seen

From the root of the tree:

    bin/recover examples/{folder} < examples/{folder}/words.bin | \
bin/show --lot examples/{folder} --words examples/{folder}/words.bin

`recover` answers `words.bin`, and `show` prints the answers. The second program says the same:

    second stream examples/{folder} < examples/{folder}/words.bin | \
second show --lot examples/{folder} --words examples/{folder}/words.bin

g: unknowns. m: equations. d: 2 to the d contents agree. What is left empty here `show` does not print either.

| record | what was done to it | `show` says | g | m | d |
|---|---|---|---|---|---|
{rows}
and then

{counts}
and last what each pattern of losses costs.

These files are made by `second lots` and held by `second compare-lots`.
",
            title = self.plan.title,
            folder = self.plan.folder,
            check = self.plan.check,
            ceiling = self.plan.ceiling,
            count = self.plan.lost,
            cartridges = self.cartridges(),
            records = self.words.len(),
            kinds = kinds(&self.read()),
            lost = rising(&self.order[..self.plan.lost], ", "),
        )
    }
}

/// A row of the table: the verdict with its counts, or the refusal with its reason.
fn row(number: usize, done: &str, record: &[u8]) -> String {
    let [code, place, g, m, d] = [0, 1, 2, 3, 4].map(|at| show::number(record, at));
    let verdict = verdict(code);
    let (said, counts) = match code {
        0..=2 => (verdict, format!("{g} | {m} | {d}")),
        18 => (
            format!("{verdict}: {}", refusal(code, place)),
            format!("{g} |  | "),
        ),
        _ => (
            format!("{verdict}: {}", refusal(code, place)),
            " |  | ".to_string(),
        ),
    };
    format!("| {number} | {done} | {said} | {counts} |\n")
}

/// The files of all folders of examples.
pub fn files() -> Vec<File> {
    let lots = [LOT, LONG].map(Lot::make);
    let mut files: Vec<File> = lots.iter().flat_map(Lot::files).collect();
    files.push(File::new("old", "sheet.bin", lots[0].old_sheet()));
    files.push(File::new("old", "README.md", OLD_README.into()));
    files.extend(SampleStrips::make().files());
    files
}

/// What stands beside the old sheet.
const OLD_README: &str = "# A sheet in the old layout

`sheet.bin` is the sheet of the sample lot (`../lot`) as it was before W-206: 20 bytes a record, the \
mask 16 of them. Every program but `convert` refuses it with 11. `convert` turns it into \
`../lot/sheet.bin`, byte for byte.

These files are made by `second lots` and held by `second compare-lots`.
";
