//! Gives the same jobs to a program and to the published Rust, and compares the answers line by line. The first job whose answers differ is cut
//! down to the smallest of which they still do.

use oracle::cut::cut_down;
use oracle::draw::{self, Drawn, Random};
use oracle::jobs::{answer, FLOATS, GRID_JOBS, OPERATIONS, PRINTED, PRINTED_BYTES};
use oracle::names::names;
use oracle::numbers::{alike, write_number, Numbers};
use oracle::tally::Tally;
use std::io::{BufReader, BufWriter, Write};
use std::process::{exit, Child, ChildStdin, Command, Stdio};
use std::sync::mpsc::{self, Sender};
use std::{env, thread};

const USAGE: &str = "\
compare COUNT SEED PROGRAM [ARGS..]             COUNT float operations drawn at random (job 8)
compare jobs LIST COUNT SEED PROGRAM [ARGS..]   COUNT random jobs, of the numbers in LIST in turn, as 1,2,12
compare roots PROGRAM [ARGS..]                  the square roots of the whole numbers 0 to 65,535";

/// How many jobs that differ are shown.
const SHOWN: u64 = 10;

/// The jobs, and where they are from.
struct Source {
    from: String,
    jobs: Box<dyn Iterator<Item = Drawn> + Send>,
}

fn main() {
    let words: Vec<String> = env::args().skip(1).collect();
    let (source, program) = chosen(&words).unwrap_or_else(|| {
        eprintln!("{USAGE}");
        exit(2)
    });
    let different = compare(source, program);
    exit(if different == 0 { 0 } else { 1 });
}

/// The jobs that the words ask for, and the program with its arguments.
fn chosen(words: &[String]) -> Option<(Source, &[String])> {
    let (source, program) = match words.first()?.as_str() {
        "roots" => (roots(), &words[1..]),
        "jobs" => {
            let numbers: Vec<u64> = listed(words.get(1)?)?;
            (drawn(numbers, words.get(2)?, words.get(3)?)?, &words[4..])
        }
        count => (drawn(vec![FLOATS], count, words.get(1)?)?, &words[2..]),
    };
    if program.is_empty() {
        None
    } else {
        Some((source, program))
    }
}

fn roots() -> Source {
    let job = |n| Drawn {
        numbers: vec![FLOATS, 0, f64::from(n).to_bits(), 0],
        put: Vec::new(),
    };
    Source {
        from: "the roots".to_string(),
        jobs: Box::new((0..=65535).map(job)),
    }
}

/// The numbers of jobs that can be drawn, with commas between them.
fn listed(list: &str) -> Option<Vec<u64>> {
    let known =
        |n: &u64| matches!(*n, FLOATS | PRINTED) || GRID_JOBS.iter().any(|(job, _)| job == n);
    list.split(',')
        .map(|word| word.parse().ok().filter(known))
        .collect()
}

fn drawn(numbers: Vec<u64>, count: &str, seed: &str) -> Option<Source> {
    let count: usize = count.parse().ok()?;
    let mut random = Random::new(seed.parse().ok()?);
    let numbers = numbers.into_iter().cycle().take(count);
    Some(Source {
        from: format!("seed {seed}"),
        jobs: Box::new(numbers.map(move |n| draw::job(n, &mut random))),
    })
}

fn start(program: &[String]) -> Child {
    let started = Command::new(&program[0])
        .args(&program[1..])
        .stdin(Stdio::piped())
        .stdout(Stdio::piped())
        .spawn();
    started.unwrap_or_else(|e| {
        eprintln!("{}: {e}", program[0]);
        exit(2)
    })
}

fn right(job: &[u64]) -> Vec<u64> {
    let mut right = Vec::new();
    answer(&mut job.iter().copied(), &mut right).expect("a whole job");
    right
}

/// Runs the program on the jobs, and counts those whose answers differ.
fn compare(source: Source, program: &[String]) -> u64 {
    let mut child = start(program);
    let input = child.stdin.take().expect("standard input is a pipe");
    let mut answers = Numbers::new(BufReader::new(
        child.stdout.take().expect("standard output is a pipe"),
    ));
    let [mut jobs, mut compared, mut different] = [0, 0, 0];
    let mut tally = Tally::default();
    let Source { from, jobs: source } = source;
    thread::scope(|scope| {
        // In a thread of its own: a program answers while it still reads. What waits for its answer is what the pipes hold.
        let (sender, receiver) = mpsc::channel();
        scope.spawn(|| feed(source, sender, input));
        let mut before: Option<Drawn> = None;
        for job in receiver {
            jobs += 1;
            let expected = right(&job.numbers);
            if job.numbers[0] != FLOATS {
                tally.add(&job, &expected);
            }
            let mut first = None;
            for (line, &right) in expected.iter().enumerate() {
                let given = answers.next();
                compared += 1;
                if first.is_none() && !given.is_some_and(|n| alike(n, right)) {
                    first = Some((line, given));
                }
            }
            if let Some((line, given)) = first {
                different += 1;
                if different <= SHOWN {
                    println!("\n{from}, job {jobs}:");
                    show(&job, &expected, line, given);
                }
                if different == 1 {
                    show_cut(program, &[Some(&job), before.as_ref()]);
                }
            }
            before = Some(job);
        }
        let more = answers.count() as u64;
        if more > 0 {
            println!("{more} numbers after the last answer");
            different += 1;
            if different == 1 {
                show_cut(program, &[before.as_ref()]);
            }
        }
    });
    let ended = child.wait().expect("the program ends");
    if !ended.success() {
        println!("the program ended with {ended}");
        different += 1;
    }
    if !tally.is_empty() {
        println!("{tally}");
    }
    println!("{compared} numbers");
    println!("{jobs} jobs compared, {different} different");
    different
}

/// Hands each job on, and then writes it, so that one which ends the program is missed.
fn feed(jobs: impl Iterator<Item = Drawn>, sender: Sender<Drawn>, input: ChildStdin) {
    let mut input = BufWriter::with_capacity(1 << 16, input);
    for job in jobs {
        let numbers = job.numbers.clone();
        if sender.send(job).is_err() || write(&mut input, &numbers).is_err() {
            return;
        }
    }
    let _ = input.flush();
}

fn write(output: &mut impl Write, numbers: &[u64]) -> std::io::Result<()> {
    numbers.iter().try_for_each(|&n| write_number(output, n))
}

/// What differs first in an answer.
fn show(job: &Drawn, expected: &[u64], line: usize, given: Option<u64>) {
    match job.numbers[..] {
        [FLOATS, operation, a, b] => println!(
            "  {} of {a} ({:e}) and {b} ({:e})",
            OPERATIONS[operation as usize],
            f64::from_bits(a),
            f64::from_bits(b)
        ),
        [PRINTED, x] => println!("  printed value of {x} ({:e})", f64::from_bits(x)),
        _ => println!("  {}", named(job.numbers[0])),
    }
    for put in &job.put {
        println!("  with {}: {}", put.field, put.end.name());
    }
    show_line(&job.numbers, expected, line, given);
}

fn named(number: u64) -> String {
    let known = GRID_JOBS.iter().find(|(n, _)| *n == number);
    format!(
        "job {number}, {}",
        known.map_or("float operation", |(_, name)| name)
    )
}

fn show_line(job: &[u64], expected: &[u64], line: usize, given: Option<u64>) {
    let name = names(job, expected).into_iter().nth(line);
    println!(
        "  number {} of the answer: {}",
        line + 1,
        name.unwrap_or("none, the answer has ended".to_string())
    );
    for (who, n) in [("Rust", expected.get(line).copied()), ("program", given)] {
        match n {
            Some(n) if job[0] == PRINTED => println!(
                "    the {who}: {n} (\"{}\")",
                n.to_be_bytes()[8 - PRINTED_BYTES..].escape_ascii()
            ),
            Some(n) => println!("    the {who}: {n} ({:e})", f64::from_bits(n)),
            None => println!("    the {who}: no number"),
        }
    }
}

/// What the program answers to one job alone.
fn asked(program: &[String], job: &[u64]) -> Vec<u64> {
    let mut child = start(program);
    let mut input = BufWriter::new(child.stdin.take().expect("standard input is a pipe"));
    let output = thread::scope(|scope| {
        scope.spawn(move || write(&mut input, job).and_then(|()| input.flush()));
        child.wait_with_output().expect("the program ends")
    });
    Numbers::new(&output.stdout[..]).collect()
}

/// The first line in which two answers differ.
fn first_line(right: &[u64], given: &[u64]) -> Option<usize> {
    let pairs = right.iter().zip(given);
    let differ = |(&a, &b): (&u64, &u64)| !alike(a, b);
    let ended = right.len().min(given.len());
    let at_the_end = Some(ended).filter(|_| right.len() != given.len());
    pairs.map(differ).position(|differ| differ).or(at_the_end)
}

/// Cuts down the first of the jobs whose answers differ when the program is asked it alone. One that has an answer too long is seen by the job
/// after it.
fn show_cut(program: &[String], jobs: &[Option<&Drawn>]) {
    let differs = |job: &[u64]| first_line(&right(job), &asked(program, job)).is_some();
    let Some(job) = jobs.iter().flatten().find(|job| differs(&job.numbers)) else {
        println!("  asked alone, the program answers it as the Rust does");
        return;
    };
    let small = cut_down(&job.numbers, differs);
    for (when, numbers) in [("before the cut", &job.numbers), ("cut down", &small)] {
        println!("  {when}, {} numbers:", numbers.len());
        let mut lines = Vec::new();
        write(&mut lines, numbers).expect("memory takes it");
        print!("{}", String::from_utf8_lossy(&lines));
    }
    let [expected, given] = [right(&small), asked(program, &small)];
    match first_line(&expected, &given) {
        Some(line) => show_line(&small, &expected, line, given.get(line).copied()),
        None => println!("  the program does not answer it twice alike"),
    }
}
