// The calls: each gives its five numbers and fills its output buffer, or leaves it as found.
// Checks run in the order 11, 12, 19, 13, 14 .. 18 and the first that applies is given. The
// converter uses the old 11 and 12, and 16. The view of a strip has no numbers: it is empty where
// there is none.

use crate::answer::Answer;
use crate::check::{checked_sequence, remainder};
use crate::code::{filled, free_bits, keeps, transform, Agreeing, ERASED};
use crate::layout::{NEW, OLD};
use crate::limits::{
    CARTRIDGE_BYTES, HEADER_BYTES, LARGEST_CEILING, LARGEST_EXPONENT, RECORD_BYTES, STRIP_BYTES,
};
use crate::sheet::Sheet;
use crate::strips::{self, Repaired};
use crate::{brute, dense, open};

/// Bytes of one answer record of the stream.
pub const ANSWER_BYTES: usize = HEADER_BYTES + 3 * STRIP_BYTES;

/// 14 for another length, 15 for the first value above the largest.
fn form(bytes: &[u8], length: usize, largest: u8) -> Result<(), Answer> {
    if bytes.len() != length {
        return Err(Answer::code(14));
    }
    match bytes.iter().position(|&value| value > largest) {
        Some(place) => Err(Answer::at(15, place)),
        None => Ok(()),
    }
}

/// 16 for an output shorter than needed.
fn room(out: &[u8], needed: usize) -> Result<(), Answer> {
    if out.len() < needed {
        return Err(Answer::code(16));
    }
    Ok(())
}

fn put(out: &mut [u8], bits: &[bool]) {
    for (byte, &bit) in out.iter_mut().zip(bits) {
        *byte = u8::from(bit);
    }
}

/// The agreeing codewords by the dense system, held to the trial of every u where N is small.
fn agreeing(sheet: &Sheet, r: usize, word: &[u8]) -> Option<Agreeing> {
    let found = dense::agreeing(sheet, r, word);
    if word.len() <= brute::LARGEST_TRIED {
        assert_eq!(found, brute::agreeing(sheet, r, word), "dense and brute");
    }
    found
}

/// The open positions, held to the trial of every pair where N is small.
fn open_positions(word: &[u8]) -> Vec<bool> {
    let found = open::open_positions(word);
    if word.len() <= brute::LARGEST_TRIED {
        assert_eq!(found, brute::open_positions(word), "open positions");
    }
    found
}

/// g and m of a word, or 17 for a ceiling above the largest, 18 for g above the ceiling.
fn counts(sheet: &Sheet, r: usize, ceiling: usize, word: &[u8]) -> Result<(usize, usize), Answer> {
    if ceiling > LARGEST_CEILING {
        return Err(Answer::code(17));
    }
    let (g, m) = open::counts(sheet, r, &open_positions(word));
    if g > ceiling {
        return Err(Answer::counted(18, g, 0, 0));
    }
    Ok((g, m))
}

/// Whether the sheet is good, with its check length.
pub fn check_sheet(n: usize, sheet: &[u8], r: usize) -> Answer {
    match Sheet::read(n, sheet, r) {
        Ok(_) => Answer::code(0),
        Err(refusal) => refusal,
    }
}

/// Writes the codeword of a payload.
pub fn encode(n: usize, sheet: &[u8], r: usize, payload: &[u8], out: &mut [u8]) -> Answer {
    encoded(n, sheet, r, payload, out).unwrap_or_else(|refusal| refusal)
}

fn encoded(
    n: usize,
    sheet: &[u8],
    r: usize,
    payload: &[u8],
    out: &mut [u8],
) -> Result<Answer, Answer> {
    let sheet = Sheet::read(n, sheet, r)?;
    form(payload, sheet.k() - r, 1)?;
    room(out, sheet.length())?;
    let mut bits: Vec<bool> = payload.iter().map(|&bit| bit == 1).collect();
    let mut shifted = checked_sequence(&bits, r);
    shifted.extend(vec![false; r]);
    bits.extend(remainder(&shifted, r));
    let u = filled(&sheet, &bits);
    assert!(keeps(&sheet, r, &u), "the encoder keeps rules and check");
    put(out, &transform(&u));
    Ok(Answer::code(0))
}

/// Writes the settled strip, the first and the last agreeing codeword.
pub fn decode(
    n: usize,
    sheet: &[u8],
    r: usize,
    ceiling: usize,
    word: &[u8],
    out: &mut [u8],
) -> Answer {
    decoded(n, sheet, r, ceiling, word, out).unwrap_or_else(|refusal| refusal)
}

fn decoded(
    n: usize,
    sheet: &[u8],
    r: usize,
    ceiling: usize,
    word: &[u8],
    out: &mut [u8],
) -> Result<Answer, Answer> {
    let sheet = Sheet::read(n, sheet, r)?;
    let length = sheet.length();
    form(word, length, 2)?;
    room(out, 3 * length)?;
    let (g, m) = counts(&sheet, r, ceiling, word)?;
    let Some(found) = agreeing(&sheet, r, word) else {
        return Ok(Answer::counted(2, g, m, 0));
    };
    out[..length].copy_from_slice(&found.settled);
    put(&mut out[length..], &transform(&found.first));
    put(&mut out[2 * length..], &transform(&found.last));
    let code = if found.d == 0 { 0 } else { 1 };
    Ok(Answer::counted(code, g, m, found.d))
}

/// Writes the payload of a whole codeword; 2 where the word is not one.
pub fn read_back(n: usize, sheet: &[u8], r: usize, word: &[u8], out: &mut [u8]) -> Answer {
    payload_read(n, sheet, r, word, out).unwrap_or_else(|refusal| refusal)
}

fn payload_read(
    n: usize,
    sheet: &[u8],
    r: usize,
    word: &[u8],
    out: &mut [u8],
) -> Result<Answer, Answer> {
    let sheet = Sheet::read(n, sheet, r)?;
    form(word, sheet.length(), 1)?;
    let payload = sheet.k() - r;
    room(out, payload)?;
    let Some(found) = agreeing(&sheet, r, word) else {
        return Ok(Answer::code(2));
    };
    put(out, &free_bits(&sheet, &found.first)[..payload]);
    Ok(Answer::code(0))
}

/// The five numbers of an answer, two bytes each, low first; then zeros.
pub fn header(answer: Answer) -> Vec<u8> {
    let mut header = vec![0; HEADER_BYTES];
    for (bytes, number) in header.chunks_mut(2).zip(answer.numbers()) {
        bytes.copy_from_slice(&number.to_le_bytes());
    }
    header
}

/// One answer record of the stream: the numbers, then three strips padded with 255.
/// `strips` holds the output of decoding, or nothing where it was left untouched.
pub fn answer_record(answer: Answer, strips: &[u8], length: usize) -> Vec<u8> {
    let mut record = header(answer);
    record.resize(ANSWER_BYTES, 255);
    let places = record[HEADER_BYTES..].chunks_mut(STRIP_BYTES);
    for (place, strip) in places.zip(strips.chunks(length)) {
        place[..length].copy_from_slice(strip);
    }
    record
}

/// n, r and the ceiling of a stream, or the code of the one record that answers it unread.
pub fn stream_numbers(sheet: &[u8], choice: &[u8]) -> Result<(usize, usize, usize), u16> {
    let allowed = (0..=LARGEST_EXPONENT).find(|n| sheet.len() == RECORD_BYTES << n);
    let n = allowed.ok_or(11u16)?;
    match choice {
        &[r, ceiling] => Ok((n, r.into(), ceiling.into())),
        _ => Err(13),
    }
}

/// The records that a stream of words is answered with.
pub fn answer_records(sheet: &[u8], choice: &[u8], input: &[u8]) -> Vec<u8> {
    let (n, r, ceiling) = match stream_numbers(sheet, choice) {
        Ok(numbers) => numbers,
        Err(code) => return answer_record(Answer::code(code), &[], 1),
    };
    let length = 1 << n;
    let mut records = Vec::new();
    for word in input.chunks(length) {
        let mut strips = vec![0; 3 * length];
        let answer = decode(n, sheet, r, ceiling, word, &mut strips);
        let written = if answer.code <= 1 { &strips[..] } else { &[] };
        records.extend(answer_record(answer, written, length));
    }
    records
}

/// Writes one answer record for each word of the input, the cut-off last one too.
pub fn stream(sheet: &[u8], choice: &[u8], input: &[u8], out: &mut [u8]) -> Answer {
    let records = answer_records(sheet, choice, input);
    match room(out, records.len()) {
        Ok(()) => {
            out[..records.len()].copy_from_slice(&records);
            Answer::code(0)
        }
        Err(refusal) => refusal,
    }
}

/// Writes an old sheet in today's layout, K = 0 too.
pub fn convert(n: usize, old: &[u8], out: &mut [u8]) -> Answer {
    converted(n, old, out).unwrap_or_else(|refusal| refusal)
}

fn converted(n: usize, old: &[u8], out: &mut [u8]) -> Result<Answer, Answer> {
    let sheet = NEW.write(&OLD.read(n, old)?);
    room(out, sheet.len())?;
    out[..sheet.len()].copy_from_slice(&sheet);
    Ok(Answer::code(0))
}

/// The bytes that a repaired strip of N cartridges takes: their records, then their marks.
pub fn repaired_bytes(length: usize) -> usize {
    (CARTRIDGE_BYTES + 1) * length
}

/// Repairs every lane of a strip: writes the settled cartridges, zeros for each other, and marks
/// these. The records of lost cartridges are not looked at.
pub fn repair(
    n: usize,
    sheet: &[u8],
    r: usize,
    ceiling: usize,
    strip: &[u8],
    lost: &[u8],
    out: &mut [u8],
) -> Answer {
    strip_repaired(n, sheet, r, ceiling, strip, lost, out).unwrap_or_else(|refusal| refusal)
}

fn strip_repaired(
    n: usize,
    sheet: &[u8],
    r: usize,
    ceiling: usize,
    strip: &[u8],
    lost: &[u8],
    out: &mut [u8],
) -> Result<Answer, Answer> {
    let sheet = Sheet::read(n, sheet, r)?;
    let length = sheet.length();
    if strip.len() != CARTRIDGE_BYTES * length {
        return Err(Answer::code(14));
    }
    form(lost, length, 1)?;
    room(out, repaired_bytes(length))?;
    // the losses of every lane
    let word: Vec<u8> = lost.iter().map(|&mark| ERASED * mark).collect();
    let (g, m) = counts(&sheet, r, ceiling, &word)?;
    match strips::repaired(&sheet, r, strip, lost) {
        Ok(found) => {
            put_repaired(out, &found);
            let code = if found.d == 0 { 0 } else { 1 };
            Ok(Answer::counted(code, g, m, found.d))
        }
        Err(lane) => Ok(Answer {
            place: lane as u16,
            ..Answer::counted(2, g, m, 0)
        }),
    }
}

/// Writes the records, zeros for each cartridge that is not settled, and its mark.
fn put_repaired(out: &mut [u8], found: &Repaired) {
    let (records, marks) = out.split_at_mut(CARTRIDGE_BYTES * found.records.len());
    let places = records.chunks_mut(CARTRIDGE_BYTES).zip(marks);
    for ((place, mark), record) in places.zip(&found.records) {
        match record {
            Some(record) => place.copy_from_slice(record),
            None => place.fill(0),
        }
        *mark = u8::from(record.is_none());
    }
}

/// The record of one cartridge within a strip of N = 2^n; empty where there is none.
pub fn view(n: usize, strip: &[u8], position: usize) -> &[u8] {
    if n > LARGEST_EXPONENT || position >= 1 << n || strip.len() != CARTRIDGE_BYTES << n {
        return &[];
    }
    &strip[CARTRIDGE_BYTES * position..][..CARTRIDGE_BYTES]
}

/// What strips end to end are answered with: a record of numbers for each strip, and what repairing
/// leaves of a buffer full of 255.
#[derive(Clone, Debug, Default, PartialEq, Eq)]
pub struct Strips {
    pub records: Vec<u8>,
    pub repaired: Vec<u8>,
}

/// The answers to strips end to end, the cut-off last one too.
pub fn strip_answers(sheet: &[u8], choice: &[u8], lost: &[u8], input: &[u8]) -> Strips {
    let mut answers = Strips::default();
    let (n, r, ceiling) = match stream_numbers(sheet, choice) {
        Ok(numbers) => numbers,
        Err(code) => {
            answers.records = header(Answer::code(code));
            return answers;
        }
    };
    for strip in input.chunks(CARTRIDGE_BYTES << n) {
        let mut out = vec![255; repaired_bytes(1 << n)];
        let answer = repair(n, sheet, r, ceiling, strip, lost, &mut out);
        answers.records.extend(header(answer));
        answers.repaired.extend(out);
    }
    answers
}

/// Repairs strips end to end into two buffers; 16 before all else where either is too short.
pub fn repair_strips(
    sheet: &[u8],
    choice: &[u8],
    lost: &[u8],
    input: &[u8],
    repaired: &mut [u8],
    records: &mut [u8],
) -> Answer {
    let answers = strip_answers(sheet, choice, lost, input);
    let parts = [(records, answers.records), (repaired, answers.repaired)];
    if let Some(refusal) = (parts.iter()).find_map(|(out, bytes)| room(out, bytes.len()).err()) {
        return refusal;
    }
    for (out, bytes) in parts {
        out[..bytes.len()].copy_from_slice(&bytes);
    }
    Answer::code(0)
}
