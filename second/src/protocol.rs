// Requests and answers as bytes, numbers low byte first.
// Request: op, n, r, ceiling (two bytes each); lengths a, b, c, o (four bytes each); then a, b and
// c bytes. Answer: code, place, g, m, d (two bytes each); then the o bytes of the output buffer.

use crate::answer::Answer;
use crate::calls;

/// The most bytes of each of a, b and c.
pub const INPUT_ROOM: usize = 40_000;

/// The most bytes of the output buffer.
pub const OUTPUT_ROOM: usize = 140_000;

/// What every byte of the output buffer holds before the call.
pub const BEFORE: u8 = 165;

/// The ops: check_sheet, encode, decode, read_back, stream, convert; repair, view; strips end to
/// end. Any other ends the run.
pub const OPS: [u16; 9] = [0, 1, 2, 3, 4, 5, 7, 8, 15];

#[derive(Clone, Debug, Default, PartialEq, Eq)]
pub struct Request {
    pub op: u16,
    pub n: u16,
    pub r: u16,
    pub ceiling: u16,
    /// The sheet, today's or, for convert, an old one; for a view the strip.
    pub a: Vec<u8>,
    /// The payload, word, input, strip or strips.
    pub b: Vec<u8>,
    /// The choice, the marks of the lost cartridges, or for strips end to end the choice, n bytes of
    /// it, and then the marks.
    pub c: Vec<u8>,
    /// The length of the output buffer.
    pub o: usize,
}

/// Takes so many bytes off the front, if they are there.
fn take<'a>(bytes: &mut &'a [u8], count: usize) -> Option<&'a [u8]> {
    let (front, rest) = bytes.split_at_checked(count)?;
    *bytes = rest;
    Some(front)
}

fn take_short(bytes: &mut &[u8]) -> Option<u16> {
    Some(u16::from_le_bytes(take(bytes, 2)?.try_into().ok()?))
}

fn take_length(bytes: &mut &[u8], room: usize) -> Option<usize> {
    let length = u32::from_le_bytes(take(bytes, 4)?.try_into().ok()?) as usize;
    (length <= room).then_some(length)
}

impl Request {
    pub fn write(&self, to: &mut Vec<u8>) {
        for number in [self.op, self.n, self.r, self.ceiling] {
            to.extend(number.to_le_bytes());
        }
        for length in [self.a.len(), self.b.len(), self.c.len(), self.o] {
            to.extend((length as u32).to_le_bytes());
        }
        for bytes in [&self.a, &self.b, &self.c] {
            to.extend(bytes);
        }
    }

    /// The next request; nothing where the run ends: no whole request is left, it asks for
    /// more than the room, or its op is none of the table.
    pub fn read(from: &mut &[u8]) -> Option<Request> {
        let [op, n, r, ceiling] = [
            take_short(from)?,
            take_short(from)?,
            take_short(from)?,
            take_short(from)?,
        ];
        let [a, b, c, o] = [
            take_length(from, INPUT_ROOM)?,
            take_length(from, INPUT_ROOM)?,
            take_length(from, INPUT_ROOM)?,
            take_length(from, OUTPUT_ROOM)?,
        ];
        OPS.contains(&op).then_some(Request {
            op,
            n,
            r,
            ceiling,
            a: take(from, a)?.to_vec(),
            b: take(from, b)?.to_vec(),
            c: take(from, c)?.to_vec(),
            o,
        })
    }

    /// Makes the call: its answer and the output buffer after it.
    pub fn perform(&self) -> (Answer, Vec<u8>) {
        let mut out = vec![BEFORE; self.o];
        let [n, r, ceiling] = [self.n, self.r, self.ceiling].map(usize::from);
        let answer = match self.op {
            0 => calls::check_sheet(n, &self.a, r),
            1 => calls::encode(n, &self.a, r, &self.b, &mut out),
            2 => calls::decode(n, &self.a, r, ceiling, &self.b, &mut out),
            3 => calls::read_back(n, &self.a, r, &self.b, &mut out),
            4 => calls::stream(&self.a, &self.c, &self.b, &mut out),
            5 => calls::convert(n, &self.a, &mut out),
            7 => calls::repair(n, &self.a, r, ceiling, &self.b, &self.c, &mut out),
            8 => self.view(&mut out),
            15 => self.repair_strips(&mut out),
            op => panic!("no op {op}"),
        };
        (answer, out)
    }

    /// Op 8: r is the position. The place says how many bytes the view has; as many as there is room
    /// for go to the start of the output.
    fn view(&self, out: &mut [u8]) -> Answer {
        let view = calls::view(self.n.into(), &self.a, self.r.into());
        for (byte, &value) in out.iter_mut().zip(view) {
            *byte = value;
        }
        Answer::at(0, view.len())
    }

    /// Op 15: n says how many bytes of c are the choice, the others are the marks; r says how many
    /// bytes of the output are the buffer for the records, the others are that for the repaired
    /// strips.
    fn repair_strips(&self, out: &mut [u8]) -> Answer {
        let choice_bytes = self.c.len().min(self.n.into());
        let (choice, lost) = self.c.split_at(choice_bytes);
        let (records, repaired) = out.split_at_mut(self.o.min(self.r.into()));
        calls::repair_strips(&self.a, choice, lost, &self.b, repaired, records)
    }
}

/// Writes an answer and its output buffer.
pub fn write_answer((answer, out): &(Answer, Vec<u8>), to: &mut Vec<u8>) {
    for number in answer.numbers() {
        to.extend(number.to_le_bytes());
    }
    to.extend(out);
}
