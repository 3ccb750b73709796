// What show prints for a person, letter by letter.

mod common;
use common::{lone, numbers, record, sheet_e, symbols};
use second::answer::Answer;
use second::calls::{answer_record, answer_records, ANSWER_BYTES};
use second::limits::{HEADER_BYTES, LARGEST_CEILING, LARGEST_EXPONENT, RECORD_BYTES, STRIP_BYTES};
use second::show::{lines, said, show, Options, Words};

/// The counts without refusals by their codes.
fn counts(unique: usize, ambiguous: usize, inconsistent: usize) -> String {
    format!(
        "\nunique        {unique:>8}\nambiguous     {ambiguous:>8}\n\
         inconsistent  {inconsistent:>8}\nrefused              0\nrecords       {:>8}\n",
        unique + ambiguous + inconsistent
    )
}

/// What is shown without an option.
fn plain(records: &[u8]) -> String {
    show(records, &Options::default())
}

/// What is shown of records and the words of a sheet of this length.
fn with_words(records: &[u8], length: usize, words: &[u8]) -> String {
    let sheet = vec![0; RECORD_BYTES * length];
    let options = Options {
        words: Words::new(&sheet, words.to_vec()),
        ..Options::default()
    };
    assert!(options.words.is_some());
    show(records, &options)
}

/// The lines of the records alone.
fn first_part(text: &str) -> &str {
    let end = text.find("\nunique  ").unwrap();
    &text[..end]
}

/// A word that lost these places.
fn losing(length: usize, lost: &[usize]) -> Vec<u8> {
    let mut word = vec![0; length];
    for &place in lost {
        word[place] = 2;
    }
    word
}

/// A unique answer, to a word of this length.
fn unique(length: usize) -> Vec<u8> {
    record([0; 5], Some([(); 3].map(|()| vec![0; length])))
}

/// An ambiguous answer with these open places.
fn ambiguous(length: usize, d: u16, open: &[usize]) -> Vec<u8> {
    let strips = [losing(length, open), vec![0; length], vec![1; length]];
    record([1, 0, 7, 8, d], Some(strips))
}

const E_WORDS: &str = "222210000221122001111000111110002222222220111";

#[test]
fn verdicts_without_words() {
    let records = answer_records(&sheet_e(), &[0, 63], &symbols(&E_WORDS[..40]));
    let lines = [
        "     1  unique        g   1  m   1  d   0\n",
        "     2  ambiguous     g   1  m   1  d   1  open 1-2, 5-6\n",
        "     3  unique        g   0  m   4  d   0\n",
        "     4  inconsistent  g   0  m   4  d   0\n",
        "     5  ambiguous     g   4  m   0  d   4  open 0-7\n",
    ];
    assert_eq!(plain(&records), lines.concat() + &counts(2, 2, 1));
    let options = Options {
        problems: true,
        ..Options::default()
    };
    let problems = [lines[1], lines[3], lines[4]];
    assert_eq!(
        show(&records, &options),
        problems.concat() + &counts(2, 2, 1)
    );
    let options = Options {
        problems: true,
        strips: true,
        ..Options::default()
    };
    let strips = [
        "        settled  02211220\n        first    01111000\n        last     00011110\n",
        "        settled  22222222\n        first    00000000\n        last     11100001\n",
    ];
    let expected = [lines[1], strips[0], lines[3], lines[4], strips[1]].concat();
    assert_eq!(show(&records, &options), expected + &counts(2, 2, 1));
    let options = Options {
        strips: true,
        ..Options::default()
    };
    let text = show(&records, &options);
    assert!(text.starts_with(&format!("{}        word     01111000\n", lines[0])));
}

#[test]
fn verdicts_with_words() {
    let words = symbols(E_WORDS);
    let records = answer_records(&sheet_e(), &[0, 63], &words);
    assert_eq!(
        with_words(&records, 8, &words),
        "     1  unique        g   1  m   1  d   0  lost 0-3; all settled
     2  ambiguous     g   1  m   1  d   1  lost 1-2, 5-6; settled none; open 1-2, 5-6
     3  unique        g   0  m   4  d   0  nothing lost
     4  inconsistent  g   0  m   4  d   0  nothing lost
     5  ambiguous     g   4  m   0  d   4  lost 0-7; settled none; open 0-7
     6  refused 14    the word is cut off  lost 0

unique               2
ambiguous            2
inconsistent         1
refused              1
  14                 1  the word is cut off
records              6

   words  what the loss costs
       2  unique, 1 inconsistent    lost none
       1  unique                    lost 0-3
       1  ambiguous of d 4          lost 0-7; open 0-7
       1  ambiguous of d 1          lost 1-2, 5-6; open 1-2, 5-6
"
    );
}

#[test]
fn settled_and_open_places() {
    let lost = [3, 17, 18, 19, 20, 30];
    let text = |open: &[usize]| {
        let record = ambiguous(32, 2, open);
        with_words(&record, 32, &losing(32, &lost))
    };
    for (open, said) in [
        (
            &[3, 18, 19, 20][..],
            "lost 3, 17-20, 30; settled 17, 30; open 3, 18-20",
        ),
        (
            &[19],
            "lost 3, 17-20, 30; settled 3, 17-18, 20, 30; open 19",
        ),
        (&lost, "lost 3, 17-20, 30; settled none; open 3, 17-20, 30"),
    ] {
        let line = format!("     1  ambiguous     g   7  m   8  d   2  {said}\n");
        assert_eq!(first_part(&text(open)), line);
    }
    let costs = "   words  what the loss costs\n       \
                 1  ambiguous of d 2          lost 3, 17-20, 30; open 3, 18-20\n";
    assert!(text(&[3, 18, 19, 20]).ends_with(costs));
}

#[test]
fn codes_with_words() {
    let word = losing(16, &[4, 5]);
    for code in (2..=30).chain([1000, 65535]) {
        let said = said(&lone(code));
        let line = match code {
            11 | 12 | 13 | 19 => said,
            _ => format!("{said}  lost 4-5"),
        };
        let text = with_words(&lone(code), 16, &word);
        let shown = first_part(&text).replace("\n        ", " ");
        assert_eq!(shown, format!("     1  {line}\n"), "{code}");
        // words of these codes alone are patterns
        let listed = text.ends_with("  lost 4-5\n");
        assert_eq!(listed, code == 2 || code == 18, "{code}");
        let text = with_words(&lone(code), 16, &[1; 16]);
        let found = first_part(&text).contains("  nothing lost\n");
        assert_eq!(found, ![11, 12, 13, 19].contains(&code), "{code}");
        // a record without a word
        let bare = with_words(&lone(code), 16, &[]);
        assert_eq!(first_part(&bare), first_part(&plain(&lone(code))));
    }
    let text = with_words(&ambiguous(16, 1, &[4, 5]), 16, &[]);
    assert!(first_part(&text).ends_with("  open 4-5\n"));
}

#[test]
fn refusals() {
    let cases: [(Answer, &str); 11] = [
        (
            Answer::code(11),
            &format!(
                "refused 11    the sheet is not {RECORD_BYTES} N bytes long for an N up to {}; \
                 one of 20 N is old, and is to be converted",
                1 << LARGEST_EXPONENT
            ),
        ),
        (
            Answer::at(12, 7),
            "refused 12    record 7 of the sheet breaks a rule",
        ),
        (
            Answer::at(12, 511),
            "refused 12    record 511 of the sheet breaks a rule",
        ),
        (
            Answer::code(13),
            "refused 13    choice.bin is not two bytes, or its check length is not 0, 6 or 11, \
             or leaves no payload",
        ),
        (Answer::code(14), "refused 14    the word is cut off"),
        (
            Answer::at(15, 300),
            "refused 15    symbol 300 is none of 0, 1 and 2",
        ),
        (Answer::code(16), "refused 16    the output is too short"),
        (
            Answer::code(17),
            &format!("refused 17    the ceiling is above {LARGEST_CEILING}"),
        ),
        (
            Answer::counted(18, 64, 0, 0),
            "refused 18    g  64  more unknowns than the ceiling allows",
        ),
        (
            Answer::counted(18, 512, 0, 0),
            "refused 18    g 512  more unknowns than the ceiling allows",
        ),
        (
            Answer::code(19),
            "refused 19    the sheet has no free position: it holds nothing",
        ),
    ];
    let all: Vec<u8> = (cases.iter())
        .flat_map(|(answer, _)| answer_record(*answer, &[], 1))
        .collect();
    let expected: String = cases.iter().map(|(_, line)| format!("{line}\n")).collect();
    assert_eq!(lines(&all), expected);
    let text = plain(&all);
    for (_, line) in &cases[4..] {
        assert!(text.contains(&format!("  {line}\n")), "{line}");
    }
    // the two long ones
    for rows in [
        "     1  refused 11    the sheet is not 68 N bytes long for an N up to 512; one of 20 N is old, and\n        \
         is to be converted\n",
        "     4  refused 13    choice.bin is not two bytes, or its check length is not 0, 6 or 11, or leaves\n        \
         no payload\n",
    ] {
        assert!(text.contains(rows), "{text}");
    }
    assert!(text.ends_with(
        "
unique               0
ambiguous            0
inconsistent         0
refused             11
  11                 1  the sheet has a wrong length
  12                 2  a record of the sheet breaks a rule
  13                 1  the check length or choice.bin is wrong
  14                 1  the word is cut off
  15                 1  a symbol is none of 0, 1 and 2
  16                 1  the output is too short
  17                 1  the ceiling is above 255
  18                 2  more unknowns than the ceiling allows
  19                 1  the sheet has no free position
records             11
"
    ));
}

#[test]
fn codes_of_no_answer() {
    for code in (3..=10).chain(20..=300).chain([256 * 14, 65535]) {
        let record = answer_record(numbers(code, 1, 2, 3, 4), &[0; 3], 1);
        assert_eq!(said(&record), format!("code {code} is no answer's"));
    }
    assert_eq!(
        plain(&lone(77).repeat(12)).split_once("\n\n").unwrap().1,
        "unique               0\nambiguous            0\ninconsistent         0\n\
         refused              0\nno answer           12\nrecords             12\n"
    );
}

#[test]
fn strips_end_at_the_first_255() {
    let options = Options {
        strips: true,
        ..Options::default()
    };
    let shown = |record: &[u8]| {
        let text = show(record, &options);
        let (_, strips) = first_part(&text).split_once('\n').unwrap();
        strips.to_string()
    };
    let of = |strips| shown(&record([0, 0, 10, 300, 0], strips));
    assert_eq!(of(None), "        word     \n");
    let bytes = vec![0, 9, 10, 254, 255, 1];
    let strips = Some([bytes, Vec::new(), Vec::new()]);
    assert_eq!(of(strips), "        word     09??\n");
    // a strip is never wrapped
    let whole = [1, 0, 2].map(|byte| vec![byte; STRIP_BYTES]);
    let [ones, zeros, twos] = ["1", "0", "2"].map(|digit| digit.repeat(STRIP_BYTES));
    assert_eq!(
        of(Some(whole.clone())),
        format!("        word     {ones}\n")
    );
    assert_eq!(
        shown(&record([1, 0, 511, 65535, 1000], Some(whole))),
        format!("        settled  {ones}\n        first    {zeros}\n        last     {twos}\n")
    );
}

#[test]
fn long_lines_are_wrapped() {
    let shown = |lost: &[usize]| {
        let text = with_words(&lone(2), 512, &losing(512, lost));
        first_part(&text).to_string()
    };
    let list = |places: &[usize]| {
        let texts: Vec<String> = places.iter().map(usize::to_string).collect();
        texts.join(", ")
    };
    let head = "     1  inconsistent  g   0  m   0  d   0  lost ";
    let many: Vec<usize> = (0..40).map(|at| 10 + 2 * at).collect();
    // 48 characters, 4 for each place of two digits and 5 for one of three, but no comma behind the last
    let hundred = [&many[..11], &[100, 102]].concat();
    assert_eq!(shown(&hundred), format!("{head}{}\n", list(&hundred)));
    assert_eq!(shown(&hundred).len(), 100 + 1);
    let longer = [&many[..10], &[100, 102, 104]].concat();
    assert_eq!(
        shown(&longer),
        format!("{head}{},\n        104\n", list(&longer[..12]))
    );
    // many lines, each as full as it can be
    let all: Vec<usize> = (0..256).map(|at| 2 * at).collect();
    let text = shown(&all);
    let rows: Vec<&str> = text.lines().collect();
    assert!(rows.len() > 12);
    for pair in rows.windows(2) {
        assert!(pair[0].len() <= 100 && pair[1].starts_with("        "));
        let (next, _) = pair[1][8..].split_once(' ').unwrap_or((&pair[1][8..], ""));
        assert!(pair[0].len() + 1 + next.len() > 100);
        assert_eq!(pair[0].trim_end(), pair[0]);
    }
    assert_eq!(
        text.replace("\n        ", " "),
        format!("{head}{}\n", list(&all))
    );
}

#[test]
fn patterns_in_their_order() {
    let mut records = Vec::new();
    let mut words = Vec::new();
    let mut add = |record: Vec<u8>, lost: &[usize], times: usize| {
        for _ in 0..times {
            records.extend(&record);
            words.extend(losing(32, lost));
        }
    };
    add(unique(32), &[10], 1);
    add(unique(32), &[9], 1);
    add(unique(32), &[9, 31], 1);
    add(unique(32), &[9, 10], 1);
    add(lone(2), &[], 1);
    add(lone(2), &[2, 4], 2);
    add(lone(2), &[2, 3], 1);
    add(ambiguous(32, 12, &[2]), &[2, 3], 2);
    add(lone(15), &[7], 9);
    add(record([18, 0, 201, 0, 0], None), &[30], 3);
    let text = with_words(&records, 32, &words);
    let (_, costs) = text
        .split_once("\n\n   words  what the loss costs\n")
        .unwrap();
    assert_eq!(
        costs,
        "       3  ambiguous of d 12, 1 inconsistent  lost 2-3; open 2
       3  over the ceiling, g 201   lost 30
       2  inconsistent              lost 2, 4
       1  inconsistent              lost none
       1  unique                    lost 9
       1  unique                    lost 9-10
       1  unique                    lost 9, 31
       1  unique                    lost 10
"
    );
}

#[test]
fn fifty_patterns_are_listed() {
    for (count, last) in [
        (50, "       1  unique                    lost 49\n"),
        (51, ".. and 1 more pattern, 1 word\n"),
        (53, ".. and 3 more patterns, 3 words\n"),
    ] {
        let mut words = losing(64, &[63]).repeat(2);
        for place in 1..count {
            words.extend(losing(64, &[place]));
        }
        let text = with_words(&unique(64).repeat(count + 1), 64, &words);
        let (_, costs) = text.split_once(" costs\n").unwrap();
        assert!(costs.starts_with("       2  unique                    lost 63\n"));
        assert_eq!(costs.lines().count(), count.min(51));
        assert!(costs.ends_with(last), "{costs}");
    }
}

#[test]
fn sheets_of_every_length() {
    for size in 0..=RECORD_BYTES * 513 {
        let good = size % RECORD_BYTES == 0
            && (size / RECORD_BYTES).is_power_of_two()
            && size <= RECORD_BYTES << LARGEST_EXPONENT;
        assert_eq!(Words::new(&vec![0; size], Vec::new()).is_some(), good);
    }
}

#[test]
fn empty_and_cut_off_inputs() {
    assert_eq!(plain(&[]), counts(0, 0, 0));
    assert_eq!(lines(&[]), "");
    let costs = "\n   words  what the loss costs\n";
    assert_eq!(with_words(&[], 8, &[]), counts(0, 0, 0) + costs);
    let record = lone(2);
    for rest in [1, HEADER_BYTES, ANSWER_BYTES - 1] {
        assert_eq!(plain(&record[..rest]), counts(0, 0, 0));
        assert_eq!(lines(&record[..rest]), "");
        let both = [&record[..], &record[..rest]].concat();
        let line = "inconsistent  g   0  m   0  d   0\n";
        assert_eq!(lines(&both), line);
        assert_eq!(plain(&both), format!("     1  {line}{}", counts(0, 0, 1)));
    }
}

#[test]
fn every_record_has_its_number() {
    let text = plain(&lone(2).repeat(1234));
    for (at, line) in text.lines().take(1234).enumerate() {
        assert_eq!(
            line,
            format!("{:>6}  inconsistent  g   0  m   0  d   0", at + 1)
        );
    }
    assert!(text.ends_with(&counts(0, 0, 1234)));
}
