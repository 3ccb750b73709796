// Strips end to end: each has the answer record and the bytes of repairing it alone; both rooms at their
// edges, strips that are cut off, and where no strip can be read one record.

mod common;
use common::strips::{any_strip, marks};
use common::BEFORE;
use second::answer::Answer;
use second::calls::{self, header, Strips};
use second::limits::{CARTRIDGE_BYTES, HEADER_BYTES};
use second::requests::Code;
use second::rng::Rng;

/// Strips end to end in two buffers, each with so many bytes more than needed.
fn end_to_end(
    sheet: &[u8],
    choice: &[u8],
    lost: &[u8],
    input: &[u8],
    more: [isize; 2],
) -> (Answer, Vec<u8>, Vec<u8>) {
    let Strips { records, repaired } = calls::strip_answers(sheet, choice, lost, input);
    let room = |bytes: &[u8], more| vec![BEFORE; bytes.len().saturating_add_signed(more)];
    let mut records = room(&records, more[0]);
    let mut repaired = room(&repaired, more[1]);
    let answer = calls::repair_strips(sheet, choice, lost, input, &mut repaired, &mut records);
    (answer, records, repaired)
}

#[test]
fn strips_end_to_end() {
    let mut rng = Rng::new(5);
    for n in 0..=6 {
        let code = Code::any(&mut rng, n, 0);
        let length = 1 << n;
        let size = CARTRIDGE_BYTES * length;
        let lost = marks(&mut rng, length, 2);
        let mut input = Vec::new();
        for spoilt in [0, 1, 0, 2] {
            input.extend(any_strip(&mut rng, n, &code.sheet, 0, spoilt));
        }
        for bytes in [
            0,
            1,
            size - 1,
            size,
            size + 1,
            3 * size,
            4 * size - 1,
            4 * size,
        ] {
            let input = &input[..bytes];
            let count = bytes.div_ceil(size);
            let choice = [0, 255];
            let (answer, records, repaired) =
                end_to_end(&code.sheet, &choice, &lost, input, [7, 9]);
            assert_eq!(answer, Answer::code(0));
            assert_eq!(records.len(), HEADER_BYTES * count + 7);
            assert_eq!(repaired.len(), 65 * length * count + 9);
            assert_eq!(records[HEADER_BYTES * count..], [BEFORE; 7]);
            assert_eq!(repaired[65 * length * count..], [BEFORE; 9]);
            for (k, strip) in input.chunks(size).enumerate() {
                let mut out = vec![255; 65 * length];
                let answer = calls::repair(n, &code.sheet, 0, 255, strip, &lost, &mut out);
                assert_eq!(records[HEADER_BYTES * k..][..HEADER_BYTES], header(answer));
                assert_eq!(repaired[65 * length * k..][..65 * length], out);
                assert!(strip.len() == size || answer == Answer::code(14));
            }
            // either buffer one byte short, and both
            for (at, more) in [[-1, 0], [0, -1], [-1, -1], [-1, 100], [100, -1]]
                .into_iter()
                .enumerate()
            {
                let (answer, records, repaired) =
                    end_to_end(&code.sheet, &choice, &lost, input, more);
                let code = if count == 0 { 0 } else { 16 };
                assert_eq!(answer, Answer::code(code), "{at}");
                assert!(count == 0 || records.iter().all(|&byte| byte == BEFORE));
                assert!(count == 0 || repaired.iter().all(|&byte| byte == BEFORE));
            }
            // marks of a wrong length are refused strip by strip
            let (answer, records, repaired) =
                end_to_end(&code.sheet, &choice, &lost[1..], input, [0, 0]);
            assert_eq!(answer, Answer::code(0));
            assert_eq!(records, header(Answer::code(14)).repeat(count));
            assert!(repaired.iter().all(|&byte| byte == 255));
        }
        for (sheet, choice, one) in [
            (&code.sheet[1..], &[0, 255][..], 11),
            (&code.sheet[1..], &[], 11),
            (&code.sheet, &[0][..], 13),
            (&code.sheet, &[0, 255, 0], 13),
        ] {
            for input in [&[][..], &input] {
                let (answer, records, repaired) = end_to_end(sheet, choice, &lost, input, [0, 4]);
                assert_eq!(answer, Answer::code(0));
                assert_eq!(records, header(Answer::code(one)));
                assert_eq!(repaired, [BEFORE; 4]);
                let (answer, ..) = end_to_end(sheet, choice, &lost, input, [-1, 4]);
                assert_eq!(answer, Answer::code(16));
            }
        }
    }
}
