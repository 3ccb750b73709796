// The bench examples of the scope, number by number and byte by byte. W-202 amends the two of a
// frozen N = 1: the sheet has no free position and is refused. W-204 amends the one of r = 6.

mod common;
use common::{decode, numbers, sheet_e, symbols, BEFORE};
use second::answer::Answer;
use second::calls::{self, ANSWER_BYTES};
use second::code::transform;
use second::limits::{RECORD_BYTES, STRIP_BYTES};

/// A row of the table: word, code, g, m, d and the three strips, if any are written.
type Row = (&'static str, u16, u16, u16, u16, Option<[&'static str; 3]>);

fn hold(n: usize, sheet: &[u8], r: usize, row: &Row) {
    let (word, code, g, m, d, strips) = row;
    let answer = decode(n, sheet, r, 63, &symbols(word));
    let strips = strips.map(|strips| strips.map(symbols));
    assert_eq!(answer, (numbers(*code, 0, *g, *m, *d), strips), "{word}");
}

#[test]
fn encoding_rows() {
    for (payload, codeword) in [
        ("1000", "01111000"),
        ("0110", "01100110"),
        ("1011", "00101101"),
    ] {
        let mut out = vec![BEFORE; 10];
        let answer = calls::encode(3, &sheet_e(), 0, &symbols(payload), &mut out);
        assert_eq!(answer, Answer::code(0));
        assert_eq!(out[..8], symbols(codeword));
        assert_eq!(out[8..], [BEFORE; 2]);
    }
}

#[test]
fn decoding_rows() {
    let whole = Some(["01111000"; 3]);
    let rows: [Row; 9] = [
        ("01111000", 0, 0, 4, 0, whole),
        ("22221000", 0, 1, 1, 0, whole),
        ("01112222", 0, 1, 1, 0, whole),
        ("21111000", 0, 0, 3, 0, whole),
        ("11111000", 2, 0, 4, 0, None),
        (
            "02200220",
            1,
            1,
            1,
            1,
            Some(["02200220", "00000000", "01100110"]),
        ),
        (
            "02211220",
            1,
            1,
            1,
            1,
            Some(["02211220", "01111000", "00011110"]),
        ),
        ("12200220", 2, 1, 1, 0, None),
        (
            "22222222",
            1,
            4,
            0,
            4,
            Some(["22222222", "00000000", "11100001"]),
        ),
    ];
    for row in &rows {
        hold(3, &sheet_e(), 0, row);
    }
}

#[test]
fn ceiling_rows() {
    let word = symbols("22222222");
    let refused = decode(3, &sheet_e(), 0, 3, &word);
    assert_eq!(refused, (numbers(18, 0, 4, 0, 0), None));
    let answered = decode(3, &sheet_e(), 0, 4, &word);
    assert_eq!(answered, decode(3, &sheet_e(), 0, 63, &word));
    assert_eq!(answered.0, numbers(1, 0, 4, 0, 4));
}

#[test]
fn one_and_two_symbols() {
    let free = [0; RECORD_BYTES];
    hold(0, &free, 0, &("2", 1, 1, 0, 1, Some(["2", "0", "1"])));
    let mut frozen = free;
    frozen[..2].copy_from_slice(&[1, 1]);
    // W-202: K = 0 answers 19, the rest 0, whatever the word
    hold(0, &frozen, 0, &("2", 19, 0, 0, 0, None));
    hold(0, &frozen, 0, &("0", 19, 0, 0, 0, None));
    hold(0, &frozen, 0, &("1", 19, 0, 0, 0, None));
    // ordered by u, not by x: the last u is 11, whose x is 01
    hold(
        1,
        &[0; 2 * RECORD_BYTES],
        0,
        &("22", 1, 2, 0, 2, Some(["22", "00", "01"])),
    );
}

/// The rest of a number whose bits are the coefficients, by D^6 + D^5 + 1.
fn divided_rest(mut number: u32) -> u32 {
    for power in (6..32).rev() {
        if number >> power & 1 == 1 {
            number ^= 0b1100001 << (power - 6);
        }
    }
    number
}

#[test]
fn check_rows() {
    // u_0 = 0. Six ones, the payload bit 0 and six zeros, divided by D^6 + D^5 + 1:
    //   1111110000000
    //   1100001
    //     1111100
    //     1100001
    //       1110100
    //       1100001
    //         1010100
    //         1100001
    //          110101
    // The payload bit 1 adds D^6 = D^5 + 1: 110101 + 100001 = 010100.
    // So u is 00110101 or 01010100: x is 01100011 or 11111100.
    let kept: Vec<u32> = (0..128)
        .filter(|free_bits| divided_rest(0b111111 << 7 | free_bits) == 0)
        .collect();
    assert_eq!(kept, [0b0110101, 0b1010100]);
    let [first, last] = ["01100011", "11111100"];
    for (u, x) in [("00110101", first), ("01010100", last)] {
        let u: Vec<bool> = symbols(u).into_iter().map(|bit| bit == 1).collect();
        let symbols: Vec<bool> = symbols(x).into_iter().map(|bit| bit == 1).collect();
        assert_eq!(transform(&u), symbols);
    }
    let mut sheet = vec![0; 8 * RECORD_BYTES];
    sheet[0] = 1;
    let strips = Some(["21122222", first, last]);
    hold(3, &sheet, 6, &("22222222", 1, 7, 6, 1, strips));
    // 01's strips for this row, before W-204, are no codewords now
    hold(3, &sheet, 6, &("00000000", 2, 0, 7, 0, None));
    hold(3, &sheet, 6, &("10011111", 2, 0, 7, 0, None));
    sheet[RECORD_BYTES] = 1;
    hold(3, &sheet, 6, &("22222222", 13, 0, 0, 0, None));
    assert_eq!(calls::check_sheet(3, &sheet, 6), Answer::code(13));
}

#[test]
fn whole_stream() {
    let input = symbols("011110002");
    let mut out = vec![BEFORE; 2 * ANSWER_BYTES + 3];
    let answer = calls::stream(&sheet_e(), &[0, 63], &input, &mut out);
    // code, place, g, m and d, low byte first, and six zeros
    let mut expected = vec![0, 0, 0, 0, 0, 0, 4, 0, 0, 0, 0, 0, 0, 0, 0, 0];
    for _ in 0..3 {
        expected.extend([0, 1, 1, 1, 1, 0, 0, 0]);
        expected.extend([255; STRIP_BYTES - 8]);
    }
    expected.extend([14, 0, 0, 0, 0, 0, 0, 0, 0, 0, 0, 0, 0, 0, 0, 0]);
    expected.extend([255; 3 * STRIP_BYTES]);
    expected.extend([BEFORE; 3]);
    assert_eq!(answer, Answer::code(0));
    assert_eq!(out, expected);
}
