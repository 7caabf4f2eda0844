//! Times the library's functions beside the Rust's, in one run and on the same arguments, and compares the results. The library's loops are the program
//! of the crate `speed`, which is asked over pipes; the Rust's are here. Printed values are timed beside the C library's.

mod library;
mod requests;
mod rust;

use library::{write_request, Library};
use oracle::numbers::bits;
use requests::{Request, Row, Table};
use std::env;
use std::hint::black_box;
use std::io::{self, BufWriter, Write};
use std::process::exit;
use std::time::Instant;

const USAGE: &str = "\
speed PROGRAM    times PROGRAM, the crate `speed`, beside the Rust
speed requests   prints the crate's stored input
speed answers    prints the Rust's answers to it";

fn main() {
    let words: Vec<String> = env::args().skip(1).collect();
    match words.iter().map(String::as_str).collect::<Vec<_>>()[..] {
        ["requests"] => print_requests(),
        ["answers"] => print_answers(),
        [program] => time_all(program),
        _ => {
            eprintln!("{USAGE}");
            exit(2)
        }
    }
}

fn print_requests() {
    let mut output = BufWriter::new(io::stdout().lock());
    for request in requests::stored() {
        write_request(&mut output, &request);
    }
    output.flush().expect("it is written");
}

fn print_answers() {
    for request in requests::stored() {
        println!("{}", bits(rust::answer(&request)));
    }
}

fn time_all(program: &str) {
    let mut library = Library::start(program);
    let mut different = 0;
    for table in requests::tables() {
        head(&table);
        for row in &table.rows {
            different += time_row(&mut library, row, table.unit_ns);
        }
    }
    if library.ask(&requests::AT_END) != rust::answer(&requests::AT_END) {
        different += 1;
        println!("the refusals at a range's end differ");
    }
    library.stop();
    println!("{different} results differ");
    exit(if different == 0 { 0 } else { 1 });
}

fn head(table: &Table) {
    let columns = format!("{:>10} {:>9} {:>9}", table.beside, "library", "ratio");
    println!(
        "{:<18} {columns} {columns}   {}, best and median",
        table.title, table.unit
    );
}

/// Prints the times of a row, and says whether the sums differ. The Rust's refusals are the oracle's own, and not timed.
fn time_row(library: &mut Library, row: &Row, unit_ns: f64) -> usize {
    let rust_timed = row.request.work != requests::REFUSALS;
    let (times, sums) = in_turns(library, row, rust_timed);
    print!("{:<18}", row.name);
    for at in [0, row.rounds / 2] {
        let time = times[1][at] / unit_ns;
        if rust_timed {
            let rust = times[0][at] / unit_ns;
            print!(" {rust:>10.3} {time:>9.3} {:>9.2}", time / rust);
        } else {
            print!(" {:>10} {time:>9.3} {:>9}", "", "");
        }
    }
    println!();
    // A sum that is no number would say nothing of the results.
    let same = sums[0].is_finite() && bits(sums[0]) == bits(sums[1]);
    if !same {
        println!("the sums of {} differ: {sums:?}", row.name);
    }
    usize::from(!same)
}

/// The times of the Rust's loop and the library's in nanoseconds per turn, from the shortest to the longest, and their sums: in turns, so that a slow
/// moment of the machine meets both. What a request of no turn takes, which builds the grid and waits for the pipes, is taken off.
fn in_turns(library: &mut Library, row: &Row, rust_timed: bool) -> ([Vec<f64>; 2], [f64; 2]) {
    let mut timed = |which: usize, count: u64| {
        let request = Request {
            count,
            ..row.request
        };
        let began = Instant::now();
        let sum = match which {
            0 => rust::answer(black_box(&request)),
            _ => library.ask(&request),
        };
        (began.elapsed().as_nanos() as f64, sum)
    };
    let count = row.request.count;
    let mut sums = [0.0; 2];
    let mut times = [Vec::new(), Vec::new()];
    let sides = if rust_timed { 0..2 } else { 1..2 };
    if !rust_timed {
        sums[0] = timed(0, count).1;
    }
    let mut empty = [f64::INFINITY; 2];
    for _ in 0..row.rounds {
        for which in sides.clone() {
            empty[which] = empty[which].min(timed(which, 0).0);
        }
    }
    for round in 0..row.rounds {
        for turn in sides.clone() {
            let which = if rust_timed { (round + turn) % 2 } else { turn };
            let (ns, sum) = timed(which, count);
            sums[which] = sum;
            times[which].push((ns - empty[which]) / count as f64);
        }
    }
    for times in &mut times {
        times.sort_by(f64::total_cmp);
    }
    (times, sums)
}
