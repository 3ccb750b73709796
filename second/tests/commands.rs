// The commands as they are run: stream, show, lines, sheet, words, repair, strips, every, more, pace,
// and the comparisons.

mod common;
use common::{folder, lone, record, sheet_e, symbols};
use second::calls;
use second::layout::{NEW, OLD};
use second::limits::RECORD_BYTES;
use second::protocol::Request;
use second::sheet::Sheet;
use std::io::{BufRead, BufReader, Write};
use std::path::{Path, PathBuf};
use std::process::{Command, Output, Stdio};

/// A folder with these two files, where they are given.
fn stream_folder(name: &str, sheet: Option<&[u8]>, choice: Option<&[u8]>) -> PathBuf {
    let folder = folder(name);
    for (file, bytes) in [("sheet.bin", sheet), ("choice.bin", choice)] {
        if let Some(bytes) = bytes {
            std::fs::write(folder.join(file), bytes).unwrap();
        }
    }
    folder
}

fn command(arguments: &[&str]) -> Command {
    let mut command = Command::new(env!("CARGO_BIN_EXE_second"));
    command
        .args(arguments)
        .stdin(Stdio::piped())
        .stdout(Stdio::piped())
        .stderr(Stdio::piped());
    command
}

/// What a command does with this input.
fn run(arguments: &[&str], input: &[u8]) -> Output {
    let mut child = command(arguments).spawn().unwrap();
    child.stdin.take().unwrap().write_all(input).unwrap();
    child.wait_with_output().unwrap()
}

/// What a command that works writes.
fn written(arguments: &[&str], input: &[u8]) -> Vec<u8> {
    let output = run(arguments, input);
    assert!(output.status.success() && output.stderr.is_empty());
    output.stdout
}

/// Sheet E with its free positions frozen.
fn none_free() -> Vec<u8> {
    let mut sheet = sheet_e();
    for i in 0..8 {
        sheet[RECORD_BYTES * i] = 1;
    }
    sheet
}

#[test]
fn the_whole_stream_of_the_bench() {
    let dir = stream_folder("bench", Some(&sheet_e()), Some(&[0, 63]));
    let whole = symbols("01111000");
    let strips = [(); 3].map(|()| whole.clone());
    let expected = [record([0, 0, 0, 4, 0], Some(strips)), lone(14)].concat();
    let answers = written(&["stream", dir.to_str().unwrap()], &symbols("011110002"));
    assert_eq!(answers, expected);
    assert_eq!(written(&["stream", dir.to_str().unwrap()], &[]), []);
    let text = written(&["show"], &answers);
    let lines = "     1  unique        g   0  m   4  d   0\n\
                 \u{20}    2  refused 14    the word is cut off\n\n";
    assert!(String::from_utf8(text).unwrap().starts_with(lines));
}

#[test]
fn a_sheet_is_drawn_for_each_size_and_check() {
    for (n, r) in [("0", 0), ("1", 0), ("5", 11), ("6", 6), ("9", 11)] {
        let bytes = written(&["sheet", n, &r.to_string(), "1"], &[]);
        let n = n.parse().unwrap();
        assert_eq!(bytes.len(), RECORD_BYTES << n);
        let sheet = Sheet::read(n, &bytes, r).unwrap();
        assert_eq!(sheet.k(), ((1 << n) / 2).max(1) + r);
    }
    for wrong in [["10", "0"], ["3", "11"]] {
        assert!(!run(&["sheet", wrong[0], wrong[1], "1"], &[])
            .status
            .success());
    }
}

#[test]
fn one_record_where_the_words_are_not_read() {
    let sheet = sheet_e();
    let nothing = none_free();
    for (name, sheet, choice, code) in [
        ("no-files", None, None, 11),
        ("no-sheet", None, Some(&[0, 63][..]), 11),
        ("short-sheet", Some(&sheet[1..]), Some(&[0, 63]), 11),
        ("no-choice", Some(&sheet), None, 13),
        ("short-choice", Some(&sheet), Some(&[0]), 13),
        ("long-choice", Some(&sheet), Some(&[0, 63, 0]), 13),
        ("nothing-cut", Some(&nothing[1..]), Some(&[0, 63]), 11),
        ("nothing-chosen", Some(&nothing), Some(&[0]), 13),
    ] {
        let dir = stream_folder(name, sheet, choice);
        let mut child = command(&["stream", dir.to_str().unwrap()]).spawn().unwrap();
        // the input stays open until the answer is there
        let input = child.stdin.take();
        let output = child.wait_with_output().unwrap();
        drop(input);
        assert_eq!(output.stdout, lone(code), "{name}");
    }
}

#[test]
fn checks_of_the_words_come_one_by_one() {
    let mut bad = sheet_e();
    bad[RECORD_BYTES * 5 + 2] = 1;
    let dir = stream_folder("bad-record", Some(&bad), Some(&[7, 99]));
    let refused = record([12, 5, 0, 0, 0], None);
    let dir = dir.to_str().unwrap();
    assert_eq!(written(&["stream", dir], &[9; 17]), refused.repeat(3));
    assert_eq!(written(&["stream", dir], &[]), []);
    let dir = stream_folder("nothing", Some(&none_free()), Some(&[7, 99]));
    let dir = dir.to_str().unwrap();
    let answers = written(&["stream", dir], &[9; 17]);
    assert_eq!(answers, lone(19).repeat(3));
    assert_eq!(written(&["stream", dir], &[]), []);
    let text = String::from_utf8(written(&["show"], &answers)).unwrap();
    let line = "     3  refused 19    the sheet has no free position: it holds nothing\n";
    assert!(text.contains(line), "{text}");
}

#[test]
fn show_with_words() {
    let dir = stream_folder("show", Some(&sheet_e()), Some(&[0, 63]));
    let words = dir.join("words.bin");
    std::fs::write(&words, symbols("022112202")).unwrap();
    let [dir, words] = [&dir, &words].map(|path| path.to_str().unwrap());
    let answers = written(&["stream", dir], &symbols("022112202"));
    let both = ["--lot", dir, "--words", words];
    let shown = |options: &[&str]| {
        let text = written(&[&["show"], options].concat(), &answers);
        String::from_utf8(text).unwrap()
    };
    let line =
        "     1  ambiguous     g   1  m   1  d   1  lost 1-2, 5-6; settled none; open 1-2, 5-6\n";
    let text = shown(&both);
    assert!(text.starts_with(line) && text.contains("\n     2  refused 14 "));
    assert!(text.ends_with("  lost 1-2, 5-6; open 1-2, 5-6\n"));
    let text = shown(&[&both[..], &["--strips", "--problems"]].concat());
    assert!(text.starts_with(&format!("{line}        settled  02211220\n")));
    for wrong in [
        &both[..2],
        &both[2..],
        &both[..3],
        &["--problem"],
        &["--strips", "x"],
    ] {
        let output = run(&[&["show"], wrong].concat(), &[]);
        assert!(output.status.code() == Some(2) && output.stdout.is_empty());
    }
    // the lines alone, one by one
    let mut child = command(&["lines"]).spawn().unwrap();
    let mut input = child.stdin.take().unwrap();
    let mut output = BufReader::new(child.stdout.take().unwrap());
    for (record, line) in answers.chunks(answers.len() / 2).zip([
        "ambiguous     g   1  m   1  d   1\n",
        "refused 14    the word is cut off\n",
    ]) {
        input.write_all(record).unwrap();
        let mut found = String::new();
        output.read_line(&mut found).unwrap();
        assert_eq!(found, line);
    }
    drop(input);
    assert!(child.wait().unwrap().success());
}

#[test]
fn words_are_the_same_again() {
    let dir = folder("words");
    written(&["lots", dir.to_str().unwrap()], &[]);
    let dir = dir.join("lot");
    let dir = dir.to_str().unwrap();
    let words = written(&["words", dir, "100", "7"], &[]);
    assert_eq!(words.len(), 12800);
    assert_eq!(words, written(&["words", dir, "100", "7"], &[]));
    assert_ne!(words, written(&["words", dir, "100", "8"], &[]));
    assert_eq!(words[..1280], written(&["words", dir, "10", "7"], &[]));
    assert!(!run(&["words", dir, "ten", "7"], &[]).status.success());
    std::fs::write(Path::new(dir).join("choice.bin"), [5, 20]).unwrap();
    let refused = run(&["words", dir, "10", "7"], &[]);
    assert_eq!(refused.status.code(), Some(1));
    assert_eq!(refused.stderr, b"second: refused 13\n");
    std::fs::write(Path::new(dir).join("sheet.bin"), none_free()).unwrap();
    let refused = run(&["words", dir, "10", "7"], &[]);
    assert_eq!(refused.status.code(), Some(1));
    assert_eq!(refused.stderr, b"second: refused 19\n");
}

#[test]
fn strips_are_drawn_and_repaired() {
    let dir = folder("strips");
    written(&["lots", dir.to_str().unwrap()], &[]);
    let sample = dir.join("strips");
    let [marks, records] = ["lost.bin", "records"].map(|name| sample.join(name));
    let [path, marks, records] = [&sample, &marks, &records].map(|path| path.to_str().unwrap());
    let strips = written(&["strips", path, marks, "20", "7"], &[]);
    assert_eq!(strips.len(), 20 * 2048);
    assert_eq!(strips, written(&["strips", path, marks, "20", "7"], &[]));
    assert_ne!(strips, written(&["strips", path, marks, "20", "8"], &[]));
    assert_eq!(
        strips[..4096],
        written(&["strips", path, marks, "2", "7"], &[])
    );
    let [sheet, choice, lost] = ["sheet.bin", "choice.bin", "lost.bin"]
        .map(|name| std::fs::read(sample.join(name)).unwrap());
    let answers = calls::strip_answers(&sheet, &choice, &lost, &strips[..5000]);
    let repaired = written(&["repair", path, marks, records], &strips[..5000]);
    assert_eq!(repaired, answers.repaired);
    assert_eq!(std::fs::read(records).unwrap(), answers.records);
    assert_eq!(repaired.len(), 3 * 65 * 32);
    // no strip, no record; no marks, and each strip is refused
    assert_eq!(written(&["repair", path, marks, records], &[]), []);
    assert_eq!(std::fs::read(records).unwrap(), []);
    let none = written(&["repair", path, "no-such-file", records], &strips[..2049]);
    assert_eq!(none, [255; 2 * 65 * 32]);
    assert_eq!(std::fs::read(records).unwrap(), lone(14)[..16].repeat(2));
    // marks that are none
    for (bytes, said) in [(&[0; 31][..], "14"), (&[2; 32], "15")] {
        std::fs::write(marks, bytes).unwrap();
        let refused = run(&["strips", path, marks, "2", "7"], &[]);
        assert_eq!(refused.status.code(), Some(1));
        let said = format!("second: refused {said}\n");
        assert_eq!(refused.stderr, said.into_bytes());
    }
    assert_eq!(run(&["repair", path, marks], &[]).status.code(), Some(2));
}

#[test]
fn one_record_where_the_strips_are_not_read() {
    let sheet = sheet_e();
    for (name, sheet, choice, code) in [
        ("strips-no-sheet", None, Some(&[0, 63][..]), 11),
        ("strips-short-sheet", Some(&sheet[1..]), Some(&[0, 63]), 11),
        ("strips-no-choice", Some(&sheet), None, 13),
        ("strips-long-choice", Some(&sheet), Some(&[0, 63, 0]), 13),
    ] {
        let dir = stream_folder(name, sheet, choice);
        let records = dir.join("records");
        let [dir, path] = [&dir, &records].map(|path| path.to_str().unwrap());
        let mut child = command(&["repair", dir, "none", path]).spawn().unwrap();
        // the input stays open until the answer is there
        let input = child.stdin.take();
        let output = child.wait_with_output().unwrap();
        drop(input);
        assert!(output.status.success() && output.stdout.is_empty());
        assert_eq!(std::fs::read(&records).unwrap(), lone(code)[..16], "{name}");
    }
}

/// The requests that a command wrote, all of them.
fn requests(mut bytes: &[u8]) -> Vec<Request> {
    let list = std::iter::from_fn(|| Request::read(&mut bytes)).collect();
    assert!(bytes.is_empty());
    list
}

#[test]
fn requests_to_measure_by() {
    for (op, call) in ["check_sheet", "encode", "decode"].into_iter().enumerate() {
        let of = |length, layout| written(&["pace", call, length, "16", "5", layout], &[]);
        let [new, old, long] =
            [("128", "new"), ("128", "old"), ("512", "new")].map(|(n, l)| of(n, l));
        let [new_list, old_list, long_list] = [&new, &old, &long].map(|bytes| requests(bytes));
        for (list, n, k) in [(&new_list, 7, 64), (&long_list, 9, 256)] {
            assert_eq!(list.len(), 5);
            for request in list {
                assert_eq!((usize::from(request.op), request.r), (op, 11));
                let records = NEW.read(n, &request.a).unwrap();
                // frozen where the number of ones is below half, naming two positions before
                for (i, record) in records.iter().enumerate() {
                    assert_eq!(record.frozen, i.count_ones() < (n as u32).div_ceil(2));
                    if record.frozen && i > 2 {
                        assert_eq!(record.named, [i - 3, i - 1]);
                    }
                }
                let lost = request.b.iter().filter(|&&symbol| symbol == 2).count();
                assert_eq!(lost, if op == 2 { 16 } else { 0 });
                let free = records.iter().filter(|record| !record.frozen).count();
                let length = [0, free - 11, 1 << n][op];
                assert_eq!((request.b.len(), request.o), (length, [0, 1, 3][op] << n));
                assert!(free >= k);
            }
        }
        // the same requests but for the layout
        for (new, old) in new_list.iter().zip(&old_list) {
            let sheets = [NEW.read(7, &new.a), OLD.read(7, &old.a)].map(Result::unwrap);
            assert_eq!(sheets[0], sheets[1]);
            let a = new.a.clone();
            assert_eq!(*new, Request { a, ..old.clone() });
            assert!(op == 0 || new_list[0].b != new_list[1].b);
        }
        // every answer is one of the call, and more requests begin with the same
        let answers = written(&["answer"], &new);
        let size = 10 + new_list[0].o;
        assert_eq!(answers.len(), 5 * size);
        assert!(answers
            .chunks(size)
            .all(|answer| answer[0] < 2 && answer[1] == 0));
        let more = written(&["pace", call, "128", "16", "9", "new"], &[]);
        assert_eq!(more[..new.len()], new);
    }
    for wrong in [
        ["pace", "stream", "128", "16", "5", "new"],
        ["pace", "decode", "100", "16", "5", "new"],
        ["pace", "decode", "1024", "16", "5", "new"],
        ["pace", "decode", "256", "16", "5", "old"],
        ["pace", "decode", "128", "129", "5", "new"],
        ["pace", "decode", "128", "16", "many", "new"],
        ["pace", "decode", "128", "16", "5", "newer"],
    ] {
        let output = run(&wrong, &[]);
        assert!(
            output.status.code() == Some(1) && output.stdout.is_empty(),
            "{wrong:?}"
        );
    }
}

#[test]
fn a_wrong_or_missing_file_fails_the_comparison() {
    for (make, compare, files) in [
        (
            "lots",
            "compare-lots",
            &[
                "lot/words.bin",
                "long/README.md",
                "old/sheet.bin",
                "strips/strips.bin",
            ][..],
        ),
        (
            "programs",
            "compare-programs",
            &["show/stdout", "convert/stdout", "repair/stdout"],
        ),
    ] {
        let dir = folder(make);
        let path = dir.to_str().unwrap();
        written(&[make, path], &[]);
        written(&[compare, path], &[]);
        let said = |message: String| {
            let output = run(&[compare, path], &[]);
            assert_eq!(output.status.code(), Some(1));
            let text = String::from_utf8(output.stderr).unwrap();
            assert!(text.starts_with(&message), "{text}");
        };
        for file in files {
            let right = std::fs::read(dir.join(file)).unwrap();
            let mut wrong = right.clone();
            wrong[30] = 3;
            std::fs::write(dir.join(file), wrong).unwrap();
            said(format!(
                "second: {file} differs at byte 30: expected {}, found 3\n",
                right[30]
            ));
            std::fs::remove_file(dir.join(file)).unwrap();
            said(format!("second: {file} cannot be read: "));
            std::fs::write(dir.join(file), right).unwrap();
        }
    }
}

#[test]
fn every_word_and_what_more_reading_changes() {
    let words = written(&["every", "2"], &[]);
    assert_eq!(words.len(), 81 * 4);
    assert_eq!(words[4 * 5..4 * 6], symbols("2100"));
    assert!(!run(&["every", "4"], &[]).status.success());
    let sheet = written(&["sheet", "2", "0", "1"], &[]);
    let lot = |name: &str, ceiling: u8| {
        let folder = stream_folder(name, Some(&sheet), Some(&[0, ceiling]));
        let path = folder.to_str().unwrap().to_string();
        let records = written(&["stream", &path], &words);
        std::fs::write(folder.join("records.bin"), records).unwrap();
        path
    };
    let (low, high) = (lot("more-low", 1), lot("more-high", 4));
    let report = String::from_utf8(written(&["more", &low, &high], &[])).unwrap();
    assert!(
        report.starts_with("second: 1,250 pairs: 0 to 0: "),
        "{report}"
    );
    let fails = |arguments: &[&str], said: &str| {
        let output = run(arguments, &[]);
        let text = String::from_utf8(output.stderr).unwrap();
        assert!(
            output.status.code() == Some(1) && text.contains(said),
            "{text}"
        );
    };
    fails(&["more", &high, &low], "the ceilings do not rise");
    assert_eq!(run(&["more"], &[]).status.code(), Some(2));
    // one number, one byte of a strip, a record too few, another sheet
    let file = Path::new(&high).join("records.bin");
    let right = std::fs::read(&file).unwrap();
    let unique = (right.chunks(calls::ANSWER_BYTES)).position(|record| record[0] == 0);
    let start = calls::ANSWER_BYTES * unique.unwrap();
    for (at, said) in [(4, "not so: "), (16, "not so: "), (20, "behind its strips")] {
        let mut wrong = right.clone();
        wrong[start + at] ^= 1;
        std::fs::write(&file, wrong).unwrap();
        fails(&["more", &high], said);
    }
    std::fs::write(&file, &right[calls::ANSWER_BYTES..]).unwrap();
    fails(&["more", &high], "81 records are wanted");
    std::fs::write(&file, &right).unwrap();
    let other = written(&["sheet", "2", "0", "2"], &[]);
    assert_ne!(sheet, other);
    std::fs::write(Path::new(&high).join("sheet.bin"), other).unwrap();
    fails(&["more", &low, &high], "the sheets or check lengths differ");
}
