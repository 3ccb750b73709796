// Requests and answers as bytes, which requests are read, and which go into the vectors: every op in its
// order, and how many bytes and requests of each.

use crate::common::{sheet_e, symbols};
use crate::lists::answered;
use second::calls::ANSWER_BYTES;
use second::layout::{NEW, OLD};
use second::limits::{CARTRIDGE_BYTES, RECORD_BYTES};
use second::protocol::{write_answer, Request};
use second::requests;

fn bytes_of(request: &Request) -> Vec<u8> {
    let mut bytes = Vec::new();
    request.write(&mut bytes);
    bytes
}

fn answer_of(request: &Request) -> Vec<u8> {
    let mut bytes = Vec::new();
    write_answer(&request.perform(), &mut bytes);
    bytes
}

#[test]
fn a_request_and_its_answer_byte_by_byte() {
    let request = Request {
        op: 2,
        n: 3,
        r: 0,
        ceiling: 63,
        a: sheet_e(),
        b: symbols("22221000"),
        c: Vec::new(),
        o: 25,
    };
    let mut expected = vec![2, 0, 3, 0, 0, 0, 63, 0];
    for length in [8 * RECORD_BYTES as u32, 8, 0, 25] {
        expected.extend(length.to_le_bytes());
    }
    expected.extend(sheet_e());
    expected.extend(symbols("22221000"));
    assert_eq!(bytes_of(&request), expected);
    let mut answer = vec![0, 0, 0, 0, 1, 0, 1, 0, 0, 0];
    answer.extend(symbols("011110000111100001111000"));
    answer.push(165);
    assert_eq!(answer_of(&request), answer);
}

/// Sheet E in the old layout.
fn old_sheet_e() -> Vec<u8> {
    OLD.write(&NEW.read(3, &sheet_e()).unwrap())
}

/// A request of each op that works; the stream is of two words, the strips are one.
fn one_of_each() -> Vec<Request> {
    let strip = vec![0; 8 * CARTRIDGE_BYTES];
    let inputs = ["", "1000", "21111000", "01111000", "011110002", ""];
    let codes = (0..6).zip(inputs).map(|(op, input)| Request {
        op,
        n: 3,
        r: 0,
        ceiling: 63,
        a: if op == 5 { old_sheet_e() } else { sheet_e() },
        b: symbols(input),
        c: if op == 4 { vec![0, 63] } else { Vec::new() },
        o: 2 * ANSWER_BYTES + 8,
    });
    let of_strips = [(7, 3, 0), (8, 3, 7), (15, 2, 16)].map(|(op, n, r)| Request {
        op,
        n,
        r,
        ceiling: 63,
        a: if op == 8 { strip.clone() } else { sheet_e() },
        b: if op == 8 { Vec::new() } else { strip.clone() },
        c: match op {
            7 => vec![0; 8],
            8 => Vec::new(),
            _ => [&[0, 63][..], &[0; 8]].concat(),
        },
        o: 2 * ANSWER_BYTES + 8,
    });
    codes.chain(of_strips).collect()
}

#[test]
fn each_op_makes_its_call() {
    let written: Vec<usize> = one_of_each()
        .iter()
        .map(|request| {
            let (answer, out) = request.perform();
            assert_eq!(answer.code, 0);
            out.iter().take_while(|&&byte| byte != 165).count()
        })
        .collect();
    let of_words = [0, 8, 24, 4, 2 * ANSWER_BYTES, 8 * RECORD_BYTES];
    assert_eq!(written[..6], of_words);
    assert_eq!(written[6..], [65 * 8, 64, 16 + 65 * 8]);
}

#[test]
fn requests_are_read_until_the_run_ends() {
    let list = one_of_each();
    let input: Vec<u8> = list.iter().flat_map(bytes_of).collect();
    let read = |mut left: &[u8]| {
        let mut read = Vec::new();
        while let Some(request) = Request::read(&mut left) {
            read.push(request);
        }
        read
    };
    assert_eq!(read(&input), list);
    assert_eq!(read(&input[..input.len() - 1]), list[..8], "cut off");
    let ended = |change: fn(&mut Request), ends: bool| {
        let mut other = list[0].clone();
        change(&mut other);
        let input: Vec<u8> = [&list[1], &other, &list[2]]
            .into_iter()
            .flat_map(bytes_of)
            .collect();
        assert_eq!(read(&input).len(), if ends { 1 } else { 3 });
    };
    ended(|request| request.a = vec![0; 40_000], false);
    ended(|request| request.a = vec![0; 40_001], true);
    ended(|request| request.b = vec![0; 40_001], true);
    ended(|request| request.c = vec![0; 40_001], true);
    ended(|request| request.o = 140_000, false);
    ended(|request| request.o = 140_001, true);
    ended(|request| request.op = 6, true);
    ended(|request| request.op = 7, false);
    ended(|request| request.op = 8, false);
    ended(|request| request.op = 9, true);
    ended(|request| request.op = 14, true);
    ended(|request| request.op = 15, false);
    ended(|request| request.op = 16, true);
}

#[test]
fn the_vectors_follow_their_ops() {
    assert!(requests::OPS.is_sorted_by(|a, b| a < b));
    let lists = requests::OPS.into_iter().flat_map(answered);
    assert!(lists.map(|(request, ..)| request).eq(&requests::all()));
}

#[test]
fn every_list_has_its_size() {
    let mut sizes = Vec::new();
    let mut counts = Vec::new();
    for op in requests::OPS {
        let list = answered(op);
        let mut size = 0;
        for (request, ..) in list {
            assert_eq!(request.op, op);
            let bytes = bytes_of(request);
            assert_eq!(Request::read(&mut &bytes[..]).as_ref(), Some(request));
            size += bytes.len() + 10 + request.o;
        }
        sizes.push(size);
        counts.push(list.len());
    }
    assert!(sizes.iter().sum::<usize>() <= 35_000_000, "{sizes:?}");
    let of_strips: usize = sizes[6..].iter().sum();
    assert!(of_strips <= 6_000_000, "{sizes:?}");
    let least = [3_500, 1_400, 6_000, 1_800, 450, 1_000, 1_500, 230, 480];
    assert_eq!(counts.len(), least.len());
    assert!(
        counts
            .iter()
            .zip(least)
            .all(|(&count, least)| count >= least),
        "{counts:?}"
    );
}
