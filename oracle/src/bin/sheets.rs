//! Draws sheets at random, and compares what a program prints for them with what it must print.

use oracle::draw::sheets::{every_edit, is_quick, sheet, Sheet};
use oracle::draw::Random;
use oracle::sheets::{self, Answer, Refused, WIDTH};
use std::collections::BTreeMap;
use std::io::{self, Read, Write};
use std::ops::Range;
use std::path::Path;
use std::process::{exit, ChildStdin, Command, Stdio};
use std::{env, fs, thread};

const USAGE: &str = "\
sheets draw SEED COUNT FOLDER [damaged]           writes sheets, and beside each what must be printed for it
sheets compare PROGRAM SEED COUNT [OPTIONS..]     gives drawn sheets to PROGRAM; damaged ones with the option damaged
sheets edits PROGRAM FILE [OPTIONS..]             gives it the sheet in FILE with each byte replaced, inserted and deleted

The sheets of SEED and COUNT have the seeds from SEED on, each its own. Options bytes and pieces: PROGRAM is given a sheet byte by byte, or
in random pieces, and not at once.";

/// How many differences are shown.
const SHOWN: u64 = 3;

/// How a sheet is written to a program's standard input.
#[derive(Clone, Copy, PartialEq)]
enum Feeding {
    Whole,
    Bytes,
    Pieces,
}

fn main() {
    let words: Vec<String> = env::args().skip(1).collect();
    let different = run(&words).unwrap_or_else(|| {
        eprintln!("{USAGE}");
        exit(2)
    });
    exit(if different == 0 { 0 } else { 1 });
}

/// Does what the words ask for, and returns how many answers differ.
fn run(words: &[String]) -> Option<u64> {
    let is = |option: &str| words.iter().any(|word| word == option);
    let (damaged, bytes, pieces) = (is("damaged"), is("bytes"), is("pieces"));
    let feeding = match (bytes, pieces) {
        (true, _) => Feeding::Bytes,
        (_, true) => Feeding::Pieces,
        _ => Feeding::Whole,
    };
    let words = words.iter().map(String::as_str);
    let words: Vec<&str> = words.filter(|word| !OPTIONS.contains(word)).collect();
    match words[..] {
        ["draw", seed, count, folder] => {
            for seed in seeds(seed, count)? {
                write(seed, damaged, Path::new(folder));
            }
            Some(0)
        }
        ["compare", program, seed, count] => {
            let drawn = |seed| sheet(damaged, &mut Random::new(seed));
            let seeds = seeds(seed, count)?;
            println!("seeds from {} to before {}", seeds.start, seeds.end);
            let sheets = seeds.map(|seed| (format!("seed {seed}"), drawn(seed)));
            Some(compare(program, sheets, feeding))
        }
        ["edits", program, file] => {
            let sheet = fs::read(file).unwrap_or_else(|e| fail(file, e));
            let numbered = (1u64..).zip(every_edit(&sheet));
            let sheets = numbered.map(|(n, sheet)| (format!("edit {n}"), sheet));
            Some(compare(program, sheets, feeding))
        }
        _ => None,
    }
}

const OPTIONS: [&str; 3] = ["damaged", "bytes", "pieces"];

fn seeds(seed: &str, count: &str) -> Option<Range<u64>> {
    let seed: u64 = seed.parse().ok()?;
    Some(seed..seed.checked_add(count.parse().ok()?)?)
}

fn fail(what: &str, error: io::Error) -> ! {
    eprintln!("{what}: {error}");
    exit(2)
}

fn write(seed: u64, damaged: bool, folder: &Path) {
    let Sheet { bytes, .. } = sheet(damaged, &mut Random::new(seed));
    let listing = Answer::to(&bytes).to_string();
    for (ending, content) in [("sheet", &bytes[..]), ("listing", listing.as_bytes())] {
        let path = folder.join(format!("{seed}.{ending}"));
        fs::write(&path, content).unwrap_or_else(|e| fail(&path.to_string_lossy(), e));
    }
}

/// Gives sheets to a program, and counts those for which it prints something else than it must.
fn compare(program: &str, sheets: impl Iterator<Item = (String, Sheet)>, feeding: Feeding) -> u64 {
    let mut met = Met::default();
    let mut random = Random::new(0);
    let [mut compared, mut different] = [0, 0];
    for (name, sheet) in sheets {
        let answer = Answer::to(&sheet.bytes);
        met.add(&sheet, &answer);
        compared += 1;
        let given = printed(program, &sheet.bytes, feeding, &mut random);
        if given != answer.to_string().as_bytes() {
            different += 1;
            if different <= SHOWN {
                println!("\n{name} {:?}, cut down:", sheet.damages);
                show(program, &sheet.bytes, feeding);
            }
        }
    }
    met.print();
    println!("{compared} compared, {different} different");
    different
}

/// What a program prints for a sheet. One that is ended by a signal has its output marked, so that it differs.
fn printed(program: &str, sheet: &[u8], feeding: Feeding, random: &mut Random) -> Vec<u8> {
    let mut child = Command::new(program)
        .stdin(Stdio::piped())
        .stdout(Stdio::piped())
        .spawn()
        .unwrap_or_else(|e| fail(program, e));
    let input = child.stdin.take().expect("standard input is a pipe");
    let mut output = child.stdout.take().expect("standard output is a pipe");
    let mut text = Vec::new();
    thread::scope(|scope| {
        // In a thread of its own: a program may print while it still reads, or end before it has read all.
        scope.spawn(|| feed(input, sheet, feeding, random));
        output.read_to_end(&mut text).expect("the output is read");
    });
    let ended = child.wait().expect("the program ends");
    if ended.code().is_none() {
        text.extend(format!("({ended})").bytes());
    }
    text
}

/// A program that has ended is seen by what it has not printed.
fn feed(mut input: ChildStdin, mut sheet: &[u8], feeding: Feeding, random: &mut Random) {
    while !sheet.is_empty() {
        let length = match feeding {
            Feeding::Whole => sheet.len(),
            Feeding::Bytes => 1,
            Feeding::Pieces => {
                let any = 1 + random.below(sheet.len() as u64) as usize;
                random.pick(&[1, 1 + WIDTH, any.min(100), any])
            }
        };
        let (piece, rest) = sheet.split_at(length.min(sheet.len()));
        if input.write_all(piece).is_err() {
            return;
        }
        sheet = rest;
        if feeding != Feeding::Whole {
            // So that the program reads what there is.
            thread::yield_now();
        }
    }
}

/// Shows a sheet that is answered differently, cut down as far as it still is.
fn show(program: &str, sheet: &[u8], feeding: Feeding) {
    let mut random = Random::new(0);
    let mut answers = |sheet: &[u8]| {
        let right = Answer::to(sheet).to_string().into_bytes();
        (right, printed(program, sheet, feeding, &mut random))
    };
    let small = cut_down(sheet, |sheet| {
        is_quick(sheet) && {
            let (right, given) = answers(sheet);
            right != given
        }
    });
    let (right, given) = answers(&small);
    let texts = [
        ("sheet", small),
        ("must be printed", right),
        ("is printed", given),
    ];
    for (name, text) in texts {
        println!("  {name}:");
        for line in text.split_inclusive(|&b| b == b'\n') {
            println!("    {}", line.escape_ascii());
        }
    }
}

/// Leaves out lines, and makes fields 0 or 1, as long as the sheet differs.
fn cut_down(sheet: &[u8], mut differs: impl FnMut(&[u8]) -> bool) -> Vec<u8> {
    let lines = sheet.split_inclusive(|&b| b == b'\n');
    let mut lines: Vec<Vec<u8>> = lines.map(|line| line.to_vec()).collect();
    let mut run = lines.len();
    while run > 0 {
        let mut at = 0;
        while at < lines.len() {
            let mut fewer = lines.clone();
            fewer.drain(at..(at + run).min(lines.len()));
            if differs(&fewer.concat()) {
                lines = fewer;
            } else {
                at += run;
            }
        }
        run /= 2;
    }
    for at in 0..lines.len() {
        for field in 0..lines[at].len().saturating_sub(1) / WIDTH {
            let first = 1 + field * WIDTH;
            for text in ["0", "1"] {
                let mut simpler = lines.clone();
                let columns = &mut simpler[at][first..first + WIDTH];
                columns.copy_from_slice(format!("{text:>WIDTH$}").as_bytes());
                if differs(&simpler.concat()) {
                    lines = simpler;
                    break;
                }
            }
        }
    }
    lines.concat()
}

/// Of a case whose detection is shown in the counts.
const MOST_STEPS_SHOWN: u64 = 5_000;

/// What was met, group by group.
#[derive(Default)]
struct Met(BTreeMap<(&'static str, String), u64>);

impl Met {
    fn count(&mut self, group: &'static str, name: impl ToString, times: u64) {
        *self.0.entry((group, name.to_string())).or_default() += times;
    }

    fn add(&mut self, sheet: &Sheet, answer: &Answer) {
        let ending = match answer {
            Answer::Refused(Refused { rule, .. }) => format!("X {rule:>2}"),
            Answer::Swept { .. } => "E".to_string(),
        };
        for damage in &sheet.damages {
            self.count("damages, and the answers", format!("{damage}, {ending}"), 1);
        }
        self.count("answers", ending, 1);
        if let (Answer::Swept { rows, cases, .. }, Ok(sweep)) = (answer, sheets::read(&sheet.bytes))
        {
            let reasons = "cases by their reasons";
            self.count(reasons, format!("{:>2}", 0), cases - rows.len() as u64);
            for row in rows {
                self.count(reasons, format!("{:>2}", row[3]), 1);
            }
            // The states of all steps are kept for it, so not of long cases.
            if sweep.steps() <= MOST_STEPS_SHOWN {
                for &case in &sweep.cases {
                    self.count("cases by when they are detected", sweep.detected_when(case), 1);
                }
            }
            self.add_parts(&sheet.bytes, &sweep.grid);
        }
    }

    /// Of a sheet that is accepted: its size, and the forms of its fields.
    fn add_parts(&mut self, sheet: &[u8], grid: &oracle::grids::Grid) {
        let sizes = [
            ("stations", grid.n_stations),
            ("cables", grid.n_cables),
            ("breakers", grid.n_breakers),
        ];
        for (name, n) in sizes {
            let from = match n {
                0..=3 => n,
                4..=15 => 4,
                16..=31 => 16,
                32..=63 => 32,
                _ => 64,
            };
            self.count(
                "accepted sheets by size",
                format!("{name}, from {from:>2}"),
                1,
            );
        }
        for line in sheet.split(|&b| b == b'\n').filter(|line| !line.is_empty()) {
            for field in line[1..].chunks(WIDTH) {
                let digits = field.trim_ascii_start();
                let point = digits.iter().position(|&b| b == b'.');
                let places = point.map_or(0, |at| digits.len() - at - 1);
                self.count("fields accepted", format!("{places} places"), 1);
                if digits.len() > 1 && digits[0] == b'0' && digits[1] != b'.' {
                    self.count("fields accepted", "zeros before", 1);
                }
            }
        }
    }

    fn print(&self) {
        let mut last = "";
        for ((group, name), count) in &self.0 {
            if *group != last {
                println!("\n{group}:");
                last = group;
            }
            println!("  {count:>8}  {name}");
        }
        println!();
    }
}
