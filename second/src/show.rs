// Answer records for a person: the line of each record, with the places where there is something to
// say of them, then the counts, and with the words also what each pattern of losses costs.

use crate::answer::ORDER;
use crate::calls::ANSWER_BYTES;
use crate::code::ERASED;
use crate::layout::OLD;
use crate::limits::{HEADER_BYTES, LARGEST_CEILING, LARGEST_EXPONENT, RECORD_BYTES, STRIP_BYTES};
use std::cmp::Reverse;
use std::collections::BTreeMap;

/// No line is longer than this, but for one piece that is.
const WIDTH: usize = 100;

/// What a wrapped line goes on with.
const INDENT: &str = "        ";

/// How many patterns of losses are listed.
const LISTED: usize = 50;

/// What is shown, and how.
#[derive(Clone, Default)]
pub struct Options {
    /// The words that were answered.
    pub words: Option<Words>,
    /// Only records that are not unique.
    pub problems: bool,
    /// The strips too, as digits.
    pub strips: bool,
}

/// Words of N symbols, one after the other; the last may be cut off.
#[derive(Clone)]
pub struct Words {
    length: usize,
    bytes: Vec<u8>,
}

impl Words {
    /// The words of a sheet, whose length gives N; none if it has a wrong length.
    pub fn new(sheet: &[u8], bytes: Vec<u8>) -> Option<Words> {
        (0..=LARGEST_EXPONENT)
            .map(|n| 1 << n)
            .find(|length| sheet.len() == RECORD_BYTES * length)
            .map(|length| Words { length, bytes })
    }

    /// The word of a record, counted from 0, if it is there.
    fn get(&self, at: usize) -> Option<&[u8]> {
        self.bytes.chunks(self.length).nth(at)
    }
}

/// The verdict of a code, or that it is a refusal, in one or two words.
pub fn verdict(code: u16) -> String {
    match code {
        0 => "unique".to_string(),
        1 => "ambiguous".to_string(),
        2 => "inconsistent".to_string(),
        code if ORDER.contains(&code) => format!("refused {code}"),
        _ => "no answer".to_string(),
    }
}

/// What a refusal says, by its code.
pub fn refusal(code: u16, place: u16) -> String {
    match code {
        11 => format!(
            "the sheet is not {RECORD_BYTES} N bytes long for an N up to {}; \
             one of {} N is old, and is to be converted",
            1 << LARGEST_EXPONENT,
            OLD.record_bytes(),
        ),
        12 => format!("record {place} of the sheet breaks a rule"),
        13 => "choice.bin is not two bytes, or its check length is not 0, 6 or 11, \
               or leaves no payload"
            .to_string(),
        14 => "the word is cut off".to_string(),
        15 => format!("symbol {place} is none of 0, 1 and 2"),
        16 => "the output is too short".to_string(),
        17 => format!("the ceiling is above {LARGEST_CEILING}"),
        18 => "more unknowns than the ceiling allows".to_string(),
        19 => "the sheet has no free position: it holds nothing".to_string(),
        code => panic!("no refusal {code}"),
    }
}

/// What a refusal means, without a place, as it stands beside its count.
fn meaning(code: u16) -> &'static str {
    match code {
        11 => "the sheet has a wrong length",
        12 => "a record of the sheet breaks a rule",
        13 => "the check length or choice.bin is wrong",
        14 => "the word is cut off",
        15 => "a symbol is none of 0, 1 and 2",
        16 => "the output is too short",
        17 => "the ceiling is above 255",
        18 => "more unknowns than the ceiling allows",
        19 => "the sheet has no free position",
        code => panic!("no refusal {code}"),
    }
}

/// Number 0 to 4 of a record: two bytes, low first.
pub fn number(record: &[u8], at: usize) -> u16 {
    u16::from_le_bytes([record[2 * at], record[2 * at + 1]])
}

/// What a record says, without its number, its places and its strips.
pub fn said(record: &[u8]) -> String {
    let [code, place, g, m, d] = [0, 1, 2, 3, 4].map(|at| number(record, at));
    let text = match code {
        0..=2 => format!("g {g:>3}  m {m:>3}  d {d:>3}"),
        11..=17 | 19 => refusal(code, place),
        18 => format!("g {g:>3}  {}", refusal(code, place)),
        _ => return format!("code {code} is no answer's"),
    };
    format!("{:<12}  {text}", verdict(code))
}

/// What every whole record says, a line for each.
pub fn lines(input: &[u8]) -> String {
    (input.chunks_exact(ANSWER_BYTES))
        .map(|record| said(record) + "\n")
        .collect()
}

/// Strip 0, 1 or 2 of a record: settled, first, last.
fn strip(record: &[u8], at: usize) -> &[u8] {
    &record[HEADER_BYTES + at * STRIP_BYTES..][..STRIP_BYTES]
}

/// The digits of a strip: its bytes up to the first 255.
fn digits(strip: &[u8]) -> String {
    (strip.iter())
        .take_while(|&&byte| byte != 255)
        .map(|&byte| match byte {
            0..=9 => char::from(b'0' + byte),
            _ => '?',
        })
        .collect()
}

/// The places that hold a 2: lost in a word, open in a settled strip.
fn twos(symbols: &[u8]) -> Vec<usize> {
    (0..symbols.len())
        .filter(|&place| symbols[place] == ERASED)
        .collect()
}

/// Places that rise, neighbours as a range.
fn ranges(places: &[usize]) -> String {
    let mut runs: Vec<(usize, usize)> = Vec::new();
    for &place in places {
        match runs.last_mut() {
            Some((_, last)) if *last + 1 == place => *last = place,
            _ => runs.push((place, place)),
        }
    }
    let texts: Vec<String> = (runs.iter())
        .map(|&(first, last)| match first == last {
            true => first.to_string(),
            false => format!("{first}-{last}"),
        })
        .collect();
    match texts.is_empty() {
        true => "none".to_string(),
        false => texts.join(", "),
    }
}

/// What is to be said of places, if anything.
fn places(record: &[u8], word: Option<&[u8]>) -> Option<String> {
    let code = number(record, 0);
    let open = twos(strip(record, 0));
    let Some(word) = word else {
        return (code == 1).then(|| format!("open {}", ranges(&open)));
    };
    let lost = twos(word);
    let settled: Vec<usize> = (lost.iter().copied())
        .filter(|place| !open.contains(place))
        .collect();
    let losses = match lost.is_empty() {
        true => "nothing lost".to_string(),
        false => format!("lost {}", ranges(&lost)),
    };
    match code {
        11 | 12 | 13 | 19 => None,
        0 if !lost.is_empty() => Some(format!("{losses}; all settled")),
        1 => Some(format!(
            "lost {}; settled {}; open {}",
            ranges(&lost),
            ranges(&settled),
            ranges(&open)
        )),
        _ => Some(losses),
    }
}

/// A line that starts with a number, in as many lines as it takes. The number stays with the piece
/// behind it; spaces at a break are dropped.
fn wrapped(line: &str) -> String {
    let piece = |from: usize| {
        let word = from + line[from..].find(|c| c != ' ').unwrap_or(0);
        let end = line[word..].find(' ').map_or(line.len(), |at| word + at);
        (word, end)
    };
    let (_, number) = piece(0);
    let (_, mut end) = piece(number);
    let mut text = line[..end].to_string();
    let mut width = end;
    while end < line.len() {
        let start = end;
        let word;
        (word, end) = piece(start);
        if width + end - start <= WIDTH {
            text += &line[start..end];
            width += end - start;
        } else {
            text += &format!("\n{INDENT}{}", &line[word..end]);
            width = INDENT.len() + end - word;
        }
    }
    text + "\n"
}

/// The lines of one record: what it says, its places, its strips.
fn entry(number_of: usize, record: &[u8], word: Option<&[u8]>, strips: bool) -> String {
    let mut line = format!("{number_of:>6}  {}", said(record));
    if let Some(places) = places(record, word) {
        line += &format!("  {places}");
    }
    let mut text = wrapped(&line);
    let names: &[&str] = match number(record, 0) {
        0 if strips => &["word"],
        1 if strips => &["settled", "first", "last"],
        _ => &[],
    };
    for (at, name) in names.iter().enumerate() {
        text += &format!("{INDENT}{name:<9}{}\n", digits(strip(record, at)));
    }
    text
}

fn counted(name: &str, count: usize) -> String {
    format!("{name:<14}{count:>8}")
}

/// The counts by verdict and by refusal.
fn summary(codes: &BTreeMap<u16, usize>) -> String {
    let of = |code| codes.get(&code).copied().unwrap_or(0);
    let refused: Vec<(u16, usize)> = (codes.iter())
        .filter(|(code, _)| ORDER.contains(code))
        .map(|(&code, &count)| (code, count))
        .collect();
    let all: usize = codes.values().sum();
    let refusals: usize = refused.iter().map(|(_, count)| count).sum();
    let others = all - of(0) - of(1) - of(2) - refusals;
    let mut rows = vec![
        counted("unique", of(0)),
        counted("ambiguous", of(1)),
        counted("inconsistent", of(2)),
        counted("refused", refusals),
    ];
    for (code, count) in refused {
        let name = format!("  {code}");
        rows.push(format!("{}  {}", counted(&name, count), meaning(code)));
    }
    if others > 0 {
        rows.push(counted("no answer", others));
    }
    rows.push(counted("records", all));
    rows.join("\n") + "\n"
}

/// What became of the words that lost the same places.
#[derive(Default)]
struct Pattern {
    words: usize,
    inconsistent: usize,
    /// What the loss costs and which places stay open, by the first word that is not inconsistent.
    cost: Option<(String, Vec<usize>)>,
}

impl Pattern {
    fn add(&mut self, record: &[u8]) {
        let [code, g, d] = [0, 2, 4].map(|at| number(record, at));
        self.words += 1;
        let cost = match code {
            0 => ("unique".to_string(), Vec::new()),
            1 => (format!("ambiguous of d {d}"), twos(strip(record, 0))),
            18 => (format!("over the ceiling, g {g}"), Vec::new()),
            _ => {
                self.inconsistent += 1;
                return;
            }
        };
        self.cost.get_or_insert(cost);
    }

    fn entry(&self, lost: &[usize]) -> String {
        let (cost, open) = match &self.cost {
            None => ("inconsistent".to_string(), &[][..]),
            Some((cost, open)) if self.inconsistent == 0 => (cost.clone(), &open[..]),
            Some((cost, open)) => (
                format!("{cost}, {} inconsistent", self.inconsistent),
                &open[..],
            ),
        };
        let mut line = format!("{:>8}  {cost:<24}  lost {}", self.words, ranges(lost));
        if !open.is_empty() {
            line += &format!("; open {}", ranges(open));
        }
        wrapped(&line)
    }
}

/// A number with its noun.
fn many(count: usize, noun: &str) -> String {
    match count {
        1 => format!("1 {noun}"),
        _ => format!("{count} {noun}s"),
    }
}

/// What each pattern costs: the most frequent first, then by the places.
fn costs(patterns: BTreeMap<Vec<usize>, Pattern>) -> String {
    let mut list: Vec<(Vec<usize>, Pattern)> = patterns.into_iter().collect();
    list.sort_by_key(|(_, pattern)| Reverse(pattern.words));
    let mut text = "   words  what the loss costs\n".to_string();
    for (lost, pattern) in list.iter().take(LISTED) {
        text += &pattern.entry(lost);
    }
    if list.len() > LISTED {
        let rest = &list[LISTED..];
        let words = rest.iter().map(|(_, pattern)| pattern.words).sum();
        text += &format!(
            ".. and {}, {}\n",
            many(rest.len(), "more pattern"),
            many(words, "word")
        );
    }
    text
}

/// All that is shown of the records.
pub fn show(input: &[u8], options: &Options) -> String {
    let mut text = String::new();
    let mut codes = BTreeMap::new();
    let mut patterns: BTreeMap<Vec<usize>, Pattern> = BTreeMap::new();
    for (at, record) in input.chunks_exact(ANSWER_BYTES).enumerate() {
        let code = number(record, 0);
        let word = options.words.as_ref().and_then(|words| words.get(at));
        *codes.entry(code).or_default() += 1;
        if code != 0 || !options.problems {
            text += &entry(at + 1, record, word, options.strips);
        }
        if let (0..=2 | 18, Some(word)) = (code, word) {
            patterns.entry(twos(word)).or_default().add(record);
        }
    }
    text += &format!("\n{}", summary(&codes));
    if options.words.is_some() {
        text += &format!("\n{}", costs(patterns));
    }
    text
}
