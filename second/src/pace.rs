// Requests to measure by: one call, so many times, on a Reed-Muller sheet with two names in each
// frozen record. In the old layout they are the same but for the sheet's bytes, so that a tree from
// before W-206 answers them by the same bytes.

use crate::code::ERASED;
use crate::layout::{Layout, Record, NEW, OLD};
use crate::limits::LARGEST_CEILING;
use crate::make::{any_codeword, bits};
use crate::protocol::Request;
use crate::rng::Rng;

/// The calls that can be measured, each by its op.
const CALLS: [&str; 3] = ["check_sheet", "encode", "decode"];

/// The largest ceiling of the old layout.
const OLD_CEILING: usize = 63;

/// The sheet of N = 2^n positions: i is free exactly when the number of ones in i is at least half of
/// n, and else names i - 1 and i - 3, as far as they exist.
pub fn sheet(n: usize) -> Vec<Record> {
    let record = |i: usize| Record {
        frozen: (i.count_ones() as usize) < n.div_ceil(2),
        constant: false,
        named: Vec::new(),
    };
    let mut records: Vec<Record> = (0..1 << n).map(record).collect();
    for (i, record) in records.iter_mut().enumerate().filter(|(_, r)| r.frozen) {
        record.named = [3, 1].iter().filter_map(|s| i.checked_sub(*s)).collect();
    }
    records
}

/// What is measured.
#[derive(Clone, Copy, Debug)]
pub struct Pace {
    op: usize,
    n: usize,
    lost: usize,
    layout: Layout,
}

impl Pace {
    /// From the words of a command, or why not: a call, N, how many symbols each word lost, and
    /// `new` or `old`.
    pub fn new(call: &str, length: &str, lost: &str, layout: &str) -> Result<Pace, String> {
        let number = |text: &str| text.parse().map_err(|_| format!("{text} is no number"));
        let op = CALLS.iter().position(|&other| other == call);
        let op = op.ok_or(format!("{call} is none of {}", CALLS.join(", ")))?;
        let layout = match layout {
            "new" => NEW,
            "old" => OLD,
            _ => return Err(format!("{layout} is none of new, old")),
        };
        let (length, lost): (usize, usize) = (number(length)?, number(lost)?);
        let n = (0..=layout.largest_exponent).find(|n| 1 << n == length);
        let n = n.ok_or(format!("{length} is no N of this layout"))?;
        if lost > length {
            return Err(format!("{lost} symbols are not there to lose"));
        }
        Ok(Pace {
            op,
            n,
            lost,
            layout,
        })
    }

    /// So many requests; the first ones are the same for any count.
    pub fn requests(&self, count: usize) -> Vec<Request> {
        let mut rng = Rng::new(700);
        let records = sheet(self.n);
        let [new, sheet] = [NEW, self.layout].map(|layout| layout.write(&records));
        let k = records.iter().filter(|record| !record.frozen).count();
        let r = [11, 6, 0].into_iter().find(|&r| r < k).unwrap_or(0);
        let ceiling = if self.n <= OLD.largest_exponent {
            OLD_CEILING
        } else {
            LARGEST_CEILING
        };
        let mut request = Request {
            op: self.op as u16,
            n: self.n as u16,
            r: r as u16,
            ceiling: ceiling as u16,
            a: sheet,
            o: [0, 1, 3][self.op] << self.n,
            ..Request::default()
        };
        (0..count)
            .map(|_| {
                request.b = match self.op {
                    0 => Vec::new(),
                    1 => bits(&mut rng, k - r),
                    _ => self.word(&mut rng, &new, r),
                };
                request.clone()
            })
            .collect()
    }

    /// A codeword that lost symbols at random places.
    fn word(&self, rng: &mut Rng, sheet: &[u8], r: usize) -> Vec<u8> {
        let mut word = any_codeword(rng, self.n, sheet, r);
        for &place in &rng.order(word.len())[..self.lost] {
            word[place] = ERASED;
        }
        word
    }
}
