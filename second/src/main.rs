// The commands: write the vectors, compare them with files, answer requests; the same for the
// sample lots and for what the programs are held to; and what these programs do.
// The vectors are the bytes of all requests (stdin) and of their answers (stdout).

use second::calls;
use second::files::{self, first_difference, shown, File};
use second::limits;
use second::lot;
use second::make::every_word;
use second::more;
use second::pace::Pace;
use second::programs;
use second::protocol::{write_answer, Request};
use second::requests::{self, Code};
use second::rng::Rng;
use second::sheet::Sheet;
use second::show::{self, Options};
use second::words::Codewords;
use std::collections::BTreeMap;
use std::io::{self, Read, Write};
use std::path::Path;
use std::process::ExitCode;

const USAGE: &str = "usage:
  second vectors DIR            write DIR/stdin and DIR/stdout, the requests and their answers
  second compare DIR            make both again and compare them with the files byte by byte
  second answer                 answer the requests on standard input, ops 0 to 5, 7, 8 and 15
  second pace CALL N LOST COUNT LAYOUT
                                write so many requests to measure by: CALL is check_sheet, encode or
                                decode, of words that lost so many symbols; LAYOUT is new or old
  second stream DIR             answer the words on standard input, by DIR/sheet.bin and DIR/choice.bin
  second show [--words FILE --lot DIR] [--problems] [--strips]
                                print the answer records on standard input for a person; with the
                                words that they answer, and the folder of their sheet, also places
  second lines                  print what each of them says alone, as soon as it is read
  second words DIR COUNT SEED   write so many damaged words of DIR/sheet.bin and DIR/choice.bin
  second repair DIR MARKS RECORDS
                                repair the strips on standard input, end to end, by DIR/sheet.bin and
                                DIR/choice.bin; MARKS is a file with a byte for each cartridge, 1 where
                                it is lost; the answer records go to the file RECORDS
  second strips DIR MARKS COUNT SEED
                                write so many strips of DIR/sheet.bin and DIR/choice.bin, end to end
  second every n                write every word of 2 to the n symbols, n up to 3
  second more DIR..             hold DIR/records.bin, the answers to every such word by DIR/sheet.bin and
                                DIR/choice.bin, to W-212: more read, never less known. The folders have
                                one sheet and check length, and ceilings that rise
  second sheet n r SEED         write a good sheet of 2 to the n positions, drawn for check length r
  second lots EXAMPLES          write the sample lots, an old sheet and strips, each in its folder
  second compare-lots EXAMPLES  make them again and compare
  second programs CRATES        write what recover, show, convert and repair read and must write
  second compare-programs CRATES
                                make it again and compare
";

/// All requests and their answers as bytes, the end of each, and how often each op gave each code.
#[derive(Default)]
struct Vectors {
    stdin: Vec<u8>,
    stdout: Vec<u8>,
    ends: Vec<(usize, usize)>,
    codes: BTreeMap<(u16, u16), usize>,
}

impl Vectors {
    fn make() -> Vectors {
        let mut vectors = Vectors::default();
        for request in requests::all() {
            let answered = request.perform();
            request.write(&mut vectors.stdin);
            write_answer(&answered, &mut vectors.stdout);
            let ends = (vectors.stdin.len(), vectors.stdout.len());
            vectors.ends.push(ends);
            *vectors
                .codes
                .entry((request.op, answered.0.code))
                .or_default() += 1;
        }
        vectors
    }

    /// One line of sizes with what came of them, then one line for each op with its codes.
    fn report(&self, outcome: &str) -> String {
        let mut text = format!(
            "second: {} requests, {} bytes in, {} bytes out: {outcome}\n",
            grouped(self.ends.len()),
            grouped(self.stdin.len()),
            grouped(self.stdout.len()),
        );
        let mut ops: BTreeMap<u16, Vec<String>> = BTreeMap::new();
        for (&(op, code), &count) in &self.codes {
            let counts = ops.entry(op).or_default();
            counts.push(format!("code {code}: {}", grouped(count)));
        }
        for (op, counts) in ops {
            text += &format!("op {op}: {}\n", counts.join(", "));
        }
        text
    }
}

/// A number with a comma before every three digits.
fn grouped(number: usize) -> String {
    let digits = number.to_string();
    let mut text = String::new();
    for (at, digit) in digits.chars().enumerate() {
        if at > 0 && (digits.len() - at).is_multiple_of(3) {
            text.push(',');
        }
        text.push(digit);
    }
    text
}

fn compare(dir: &Path) -> io::Result<Result<String, String>> {
    let vectors = Vectors::make();
    for (file, ours, ends) in [
        (
            "stdin",
            &vectors.stdin,
            vectors.ends.iter().map(|e| e.0).collect::<Vec<_>>(),
        ),
        (
            "stdout",
            &vectors.stdout,
            vectors.ends.iter().map(|e| e.1).collect(),
        ),
    ] {
        let theirs = std::fs::read(dir.join(file))?;
        if let Some(at) = first_difference(ours, &theirs) {
            return Ok(Err(format!(
                "second: {file} differs at byte {at}, in request {} counted from 0: expected {}, found {}\n",
                ends.iter().take_while(|&&end| end <= at).count(),
                shown(ours.get(at)),
                shown(theirs.get(at)),
            )));
        }
    }
    Ok(Ok(vectors.report("equal")))
}

fn write_vectors(dir: &Path) -> io::Result<String> {
    let vectors = Vectors::make();
    std::fs::create_dir_all(dir)?;
    std::fs::write(dir.join("stdin"), &vectors.stdin)?;
    std::fs::write(dir.join("stdout"), &vectors.stdout)?;
    Ok(vectors.report("written"))
}

/// Answers every request on standard input until the run ends.
fn answer() -> io::Result<()> {
    let mut input = Vec::new();
    io::stdin().read_to_end(&mut input)?;
    let mut left = &input[..];
    let mut answers = Vec::new();
    while let Some(request) = Request::read(&mut left) {
        write_answer(&request.perform(), &mut answers);
    }
    io::stdout().write_all(&answers)
}

/// Writes so many requests to measure by.
fn pace(pace: Result<Pace, String>, count: &str) -> io::Result<()> {
    let pace = pace.map_err(io::Error::other)?;
    let count = count.parse().map_err(io::Error::other)?;
    let mut bytes = Vec::new();
    for request in pace.requests(count) {
        request.write(&mut bytes);
    }
    io::stdout().write_all(&bytes)
}

/// All of standard input; a failed read counts as its end.
fn input() -> Vec<u8> {
    let mut input = Vec::new();
    // what was read before the failure stands in the input
    let _ = io::stdin().read_to_end(&mut input);
    input
}

/// A file of a folder; one that is missing or cannot be read counts as empty.
fn file_or_empty(dir: &Path, name: &str) -> Vec<u8> {
    std::fs::read(dir.join(name)).unwrap_or_default()
}

/// Answers the words on standard input; does not read them where one record answers all.
fn stream(dir: &Path) -> io::Result<()> {
    let [sheet, choice] = ["sheet.bin", "choice.bin"].map(|name| file_or_empty(dir, name));
    let words = match calls::stream_numbers(&sheet, &choice) {
        Ok(_) => input(),
        Err(_) => Vec::new(),
    };
    io::stdout().write_all(&calls::answer_records(&sheet, &choice, &words))
}

/// Repairs the strips on standard input; does not read them where one record answers all.
fn repair(dir: &Path, marks: &str, records: &str) -> io::Result<()> {
    let [sheet, choice] = ["sheet.bin", "choice.bin"].map(|name| file_or_empty(dir, name));
    let lost = std::fs::read(marks).unwrap_or_default();
    let strips = match calls::stream_numbers(&sheet, &choice) {
        Ok(_) => input(),
        Err(_) => Vec::new(),
    };
    let answers = calls::strip_answers(&sheet, &choice, &lost, &strips);
    std::fs::write(records, &answers.records)?;
    io::stdout().write_all(&answers.repaired)
}

/// What show is asked for; none where that is not understood. Words need a lot and a lot words.
fn show_options(mut arguments: &[&str]) -> io::Result<Option<Options>> {
    let mut options = Options::default();
    let (mut words, mut lot) = (None, None);
    loop {
        arguments = match arguments {
            [] => break,
            ["--problems", rest @ ..] => {
                options.problems = true;
                rest
            }
            ["--strips", rest @ ..] => {
                options.strips = true;
                rest
            }
            ["--words", file, rest @ ..] => {
                words = Some(std::fs::read(file)?);
                rest
            }
            ["--lot", dir, rest @ ..] => {
                lot = Some(std::fs::read(Path::new(dir).join("sheet.bin"))?);
                rest
            }
            _ => return Ok(None),
        }
    }
    match (words, lot) {
        (None, None) => {}
        (Some(words), Some(sheet)) => {
            let words = show::Words::new(&sheet, words);
            options.words = Some(words.ok_or(io::Error::other("the sheet has a wrong length"))?);
        }
        _ => return Ok(None),
    }
    Ok(Some(options))
}

/// Says what each record on standard input says, one at a time.
fn lines() -> io::Result<()> {
    let mut record = [0; calls::ANSWER_BYTES];
    let mut out = io::stdout().lock();
    while io::stdin().read_exact(&mut record).is_ok() {
        out.write_all(show::lines(&record).as_bytes())?;
        out.flush()?;
    }
    Ok(())
}

fn refused(code: u16) -> io::Error {
    io::Error::other(format!("refused {code}"))
}

/// The codewords of a folder's sheet, and N.
fn codewords(dir: &Path) -> io::Result<(Codewords, usize)> {
    let sheet = std::fs::read(dir.join("sheet.bin"))?;
    let choice = std::fs::read(dir.join("choice.bin"))?;
    let (n, r, _) = calls::stream_numbers(&sheet, &choice).map_err(refused)?;
    let codewords = Codewords::new(n, &sheet, r).map_err(|answer| refused(answer.code))?;
    Ok((codewords, 1 << n))
}

/// Writes what is drawn so many times.
fn draw(count: &str, seed: &str, mut next: impl FnMut(&mut Rng) -> Vec<u8>) -> io::Result<()> {
    let number = |text: &str| text.parse::<u64>().map_err(io::Error::other);
    let (count, mut rng) = (number(count)?, Rng::new(number(seed)?));
    let mut out = io::BufWriter::new(io::stdout().lock());
    for _ in 0..count {
        out.write_all(&next(&mut rng))?;
    }
    out.flush()
}

/// Writes so many damaged words of a folder's sheet.
fn words(dir: &Path, count: &str, seed: &str) -> io::Result<()> {
    let (codewords, _) = codewords(dir)?;
    draw(count, seed, |rng| codewords.damaged(rng))
}

/// Writes so many strips of a folder's sheet, damaged where the marks say and some in one bit more.
fn strips(dir: &Path, marks: &str, count: &str, seed: &str) -> io::Result<()> {
    let (codewords, length) = codewords(dir)?;
    let lost = std::fs::read(marks)?;
    if lost.len() != length {
        return Err(refused(14));
    }
    if lost.iter().any(|&mark| mark > 1) {
        return Err(refused(15));
    }
    draw(count, seed, |rng| codewords.damaged_strip(rng, &lost))
}

/// The largest n of which every word is written.
const LARGEST_EVERY: usize = 3;

/// Writes every word of 2 to the n symbols.
fn every(n: &str) -> io::Result<()> {
    let n: usize = n.parse().map_err(io::Error::other)?;
    if n > LARGEST_EVERY {
        return Err(io::Error::other("too many words"));
    }
    io::stdout().write_all(&every_word(1 << n, 3).concat())
}

/// Holds the answers to every word, under ceilings that rise, to what more reading may change.
fn more(dirs: &[&str]) -> io::Result<Result<String, String>> {
    let mut lots = Vec::new();
    let mut sheets = Vec::new();
    for dir in dirs.iter().map(Path::new) {
        let sheet = std::fs::read(dir.join("sheet.bin"))?;
        let choice = std::fs::read(dir.join("choice.bin"))?;
        let (n, r, ceiling) = calls::stream_numbers(&sheet, &choice).map_err(refused)?;
        if n > LARGEST_EVERY {
            return Err(io::Error::other("too many words"));
        }
        let read = Sheet::read(n, &sheet, r).map_err(|answer| refused(answer.code))?;
        let records = std::fs::read(dir.join("records.bin"))?;
        let answers = more::every_told(1 << n, &records).map_err(io::Error::other)?;
        lots.push((ceiling, answers));
        sheets.push((read, r));
    }
    let (sheet, r) = &sheets[0];
    if sheets.iter().any(|other| other != &sheets[0]) {
        return Err(io::Error::other("the sheets or check lengths differ"));
    }
    Ok(match more::hold(sheet.k(), *r, &lots) {
        Ok(ways) => {
            let count = ways.values().sum();
            let ways: Vec<String> = (ways.iter())
                .map(|((a, b), count)| format!("{a} to {b}: {}", grouped(*count)))
                .collect();
            let count = grouped(count);
            Ok(format!("second: {count} pairs: {}\n", ways.join(", ")))
        }
        Err(difference) => Err(format!("second: {difference}\n")),
    })
}

/// Writes a good sheet whose free positions are those of the most ones, half of all but for the check.
fn sheet(n: &str, r: &str, seed: &str) -> io::Result<()> {
    let number = |text: &str| text.parse::<usize>().map_err(io::Error::other);
    let (n, r, mut rng) = (number(n)?, number(r)?, Rng::new(number(seed)? as u64));
    let k = ((1 << n) / 2).max(1) + r;
    if n > limits::LARGEST_EXPONENT || k > 1 << n {
        return Err(io::Error::other("no such sheet"));
    }
    io::stdout().write_all(&Code::weighted(&mut rng, n, r, k).sheet)
}

/// One line of sizes with what came of them.
fn sizes(files: &[File], outcome: &str) -> String {
    let bytes = files.iter().map(|file| file.bytes.len()).sum();
    let count = files.len();
    format!(
        "second: {count} files, {} bytes: {outcome}\n",
        grouped(bytes)
    )
}

fn write_files(dir: &Path, files: &[File]) -> io::Result<String> {
    files::write(dir, files)?;
    Ok(sizes(files, "written"))
}

fn compare_files(dir: &Path, files: &[File]) -> Result<String, String> {
    match files::compare(dir, files) {
        Ok(()) => Ok(sizes(files, "equal")),
        Err(difference) => Err(format!("second: {difference}\n")),
    }
}

/// Prints what a comparison found: a difference fails.
fn outcome(compared: Result<String, String>) -> ExitCode {
    match compared {
        Ok(report) => {
            print!("{report}");
            ExitCode::SUCCESS
        }
        Err(difference) => {
            eprint!("{difference}");
            ExitCode::FAILURE
        }
    }
}

/// Says how the commands are used.
fn misused() -> ExitCode {
    eprint!("{USAGE}");
    ExitCode::from(2)
}

fn run(arguments: &[&str]) -> io::Result<ExitCode> {
    match arguments {
        ["vectors", dir] => print!("{}", write_vectors(Path::new(dir))?),
        ["compare", dir] => return Ok(outcome(compare(Path::new(dir))?)),
        ["answer"] => answer()?,
        ["pace", call, length, lost, count, layout] => {
            pace(Pace::new(call, length, lost, layout), count)?
        }
        ["stream", dir] => stream(Path::new(dir))?,
        ["show", options @ ..] => match show_options(options)? {
            Some(options) => {
                io::stdout().write_all(show::show(&input(), &options).as_bytes())?;
            }
            None => return Ok(misused()),
        },
        ["lines"] => lines()?,
        ["words", dir, count, seed] => words(Path::new(dir), count, seed)?,
        ["repair", dir, marks, records] => repair(Path::new(dir), marks, records)?,
        ["strips", dir, marks, count, seed] => strips(Path::new(dir), marks, count, seed)?,
        ["every", n] => every(n)?,
        ["more", dirs @ ..] if !dirs.is_empty() => return Ok(outcome(more(dirs)?)),
        ["sheet", n, r, seed] => sheet(n, r, seed)?,
        ["lots", dir] => print!("{}", write_files(Path::new(dir), &lot::files())?),
        ["compare-lots", dir] => return Ok(outcome(compare_files(Path::new(dir), &lot::files()))),
        ["programs", dir] => print!("{}", write_files(Path::new(dir), &programs::files())?),
        ["compare-programs", dir] => {
            return Ok(outcome(compare_files(Path::new(dir), &programs::files())))
        }
        _ => return Ok(misused()),
    }
    Ok(ExitCode::SUCCESS)
}

fn main() -> ExitCode {
    let arguments: Vec<String> = std::env::args().skip(1).collect();
    let arguments: Vec<&str> = arguments.iter().map(String::as_str).collect();
    run(&arguments).unwrap_or_else(|error| {
        eprintln!("second: {error}");
        ExitCode::FAILURE
    })
}
