//! Times the program `sweep` on sheets of some sizes beside `sheet_sweep`, which runs the published fault run for each case: from the start of
//! each process to its end, the best of some rounds in turns, by the clock and by the processor's time. Their listings must be the same.

use std::ffi::{c_int, c_long};
use std::fmt::Write as _;
use std::io::Write as _;
use std::path::PathBuf;
use std::process::{exit, Command, Stdio};
use std::time::Instant;
use std::{env, thread};

const USAGE: &str = "\
sheet_speed PROGRAM [ROUNDS [NAME..]]   times PROGRAM on its sheets, or those of the names, beside sheet_sweep
sheet_speed PROGRAM growth              times PROGRAM alone on sheets that grow in steps, in cables and in breakers";

/// There is no further round of a sheet when the Rust's have taken so many of the processor's seconds.
const ENOUGH: f64 = 20.0;

/// A sheet that is timed: tenths 1 to 10 of each cable, in steps of a microsecond.
struct Timed {
    name: &'static str,
    /// Stations, cables, breakers.
    counts: [u64; 3],
    steps: u64,
    /// Of the fault.
    ohms: &'static str,
    breakers: Breakers,
}

/// Of the breakers of a sheet the kind and two times: in ms, and of a hybrid one in µs too.
type Breakers = [&'static str; 3];

/// Mechanical, and slower than any case.
const NEVER: Breakers = ["0", "10000", "0"];
/// Mechanical, 100 steps.
const EARLY: Breakers = ["0", "0.1", "0"];
/// 250 µs and 0.3 of 10 ms: 3,250 steps.
const HYBRID: Breakers = ["2", "10", "250"];

const SHEETS: [Timed; 9] = [
    Timed {
        name: "pair",
        counts: [2, 1, 2],
        steps: 200_000,
        ohms: "0.1",
        breakers: HYBRID,
    },
    Timed {
        name: "pair-late",
        counts: [2, 1, 2],
        steps: 200_000,
        ohms: "0.1",
        breakers: NEVER,
    },
    Timed {
        name: "planner",
        counts: [12, 16, 12],
        steps: 25_000,
        ohms: "0.1",
        breakers: EARLY,
    },
    Timed {
        name: "planner-late",
        counts: [12, 16, 12],
        steps: 5_000,
        ohms: "0.1",
        breakers: NEVER,
    },
    Timed {
        name: "full",
        counts: [32, 64, 32],
        steps: 1_000,
        ohms: "0.1",
        breakers: NEVER,
    },
    // The three before with 10 ohms: it takes tens to hundreds of steps until one is detected, and at times none is.
    Timed {
        name: "planner-10",
        counts: [12, 16, 12],
        steps: 25_000,
        ohms: "10",
        breakers: EARLY,
    },
    Timed {
        name: "planner-late-10",
        counts: [12, 16, 12],
        steps: 5_000,
        ohms: "10",
        breakers: NEVER,
    },
    Timed {
        name: "full-10",
        counts: [32, 64, 32],
        steps: 1_000,
        ohms: "10",
        breakers: NEVER,
    },
    Timed {
        name: "weak",
        counts: [12, 16, 12],
        steps: 5_000,
        ohms: "1000000",
        breakers: NEVER,
    },
];

impl Timed {
    /// A ring of stations with chords, of the four topologies in turn and without load.
    fn text(&self) -> String {
        let [n, cables, breakers] = self.counts;
        let mut text = String::new();
        line(&mut text, 'T', &["1".into(), ms(self.steps)]);
        line(
            &mut text,
            'O',
            &[self.ohms.to_string(), "0".into(), "1".into(), "10".into()],
        );
        for i in 0..n {
            let modules = if i % 4 == 2 { 200 } else { 0 };
            let mut fields = vec![(i % 4).to_string(), modules.to_string(), i.to_string()];
            fields.extend(["320", "0", "0.15", "3", "15", "0.1", "50", "10000"].map(String::from));
            line(&mut text, 'S', &fields);
        }
        for k in 0..cables {
            let mut fields = [k, k % n, (k + 1 + k / n * 4) % n].map(|x| x.to_string()).to_vec();
            fields.extend(["0.01", "0.5", "0.2", "100"].map(String::from));
            line(&mut text, 'C', &fields);
        }
        for k in 0..breakers {
            let [kind, time, second] = self.breakers;
            let mut fields = [k, k].map(|x| x.to_string()).to_vec();
            fields.extend([kind, time, second, "16", "10"].map(String::from));
            line(&mut text, 'B', &fields);
        }
        text
    }
}

fn line(text: &mut String, letter: char, fields: &[String]) {
    text.push(letter);
    for field in fields {
        write!(text, "{field:>12}").expect("a string takes it");
    }
    text.push('\n');
}

/// So many microseconds, in milliseconds.
fn ms(us: u64) -> String {
    format!("{}.{:03}", us / 1000, us % 1000)
}

/// Seconds from the start of a process to its end, and those that a processor worked for it.
#[derive(Clone, Copy)]
struct Seconds {
    clock: f64,
    processor: f64,
}

impl Seconds {
    const MOST: Seconds = Seconds {
        clock: f64::MAX,
        processor: f64::MAX,
    };

    /// The better of both, each by itself.
    fn or(self, other: Seconds) -> Seconds {
        Seconds {
            clock: self.clock.min(other.clock),
            processor: self.processor.min(other.processor),
        }
    }
}

/// What `getrusage` fills: the time in user mode and in the kernel, each in seconds and microseconds, and counts that are not looked at.
#[repr(C)]
#[derive(Default)]
struct Usage {
    user: [c_long; 2],
    kernel: [c_long; 2],
    counts: [c_long; 14],
}

extern "C" {
    fn getrusage(who: c_int, usage: *mut Usage) -> c_int;
}

/// The processor's seconds of all processes that were started here and have ended.
fn of_children() -> f64 {
    const CHILDREN: c_int = -1;
    let mut usage = Usage::default();
    // SAFETY: on 64-bit Linux `Usage` has the form that is filled.
    let failed = unsafe { getrusage(CHILDREN, &mut usage) };
    assert_eq!(failed, 0, "no processor times");
    let seconds = |[s, us]: [c_long; 2]| s as f64 + us as f64 / 1e6;
    seconds(usage.user) + seconds(usage.kernel)
}

/// What a program prints for a sheet, and its seconds. One process runs at a time.
fn run(program: &PathBuf, sheet: &str) -> (Vec<u8>, Seconds) {
    let before = of_children();
    let began = Instant::now();
    let mut child = Command::new(program)
        .stdin(Stdio::piped())
        .stdout(Stdio::piped())
        .stderr(Stdio::null())
        .spawn()
        .expect("the program starts");
    let mut input = child.stdin.take().expect("it is piped");
    let bytes = sheet.as_bytes().to_vec();
    let writer = thread::spawn(move || input.write_all(&bytes));
    let output = child.wait_with_output().expect("the program ends");
    let clock = began.elapsed().as_secs_f64();
    let processor = of_children() - before;
    writer.join().expect("it ends").expect("the program reads its input");
    (output.stdout, Seconds { clock, processor })
}

/// How the time of a program grows, one size at a time.
fn growth(program: &PathBuf) {
    let sheet = |counts, steps| Timed {
        name: "",
        counts,
        steps,
        ohms: "0.1",
        breakers: NEVER,
    };
    let mut sheets = Vec::new();
    sheets.extend([1_000, 10_000, 100_000, 1_000_000].map(|steps| sheet([2, 1, 2], steps)));
    sheets.extend([1, 4, 16, 64].map(|cables| sheet([32, cables, 32], 1_000)));
    sheets.extend([0, 1, 8, 32].map(|breakers| sheet([32, 64, breakers], 1_000)));
    println!(
        "{:>8} {:>6} {:>8} {:>10} {:>12} {:>15}",
        "stations", "cables", "breakers", "steps", "sweep, ms", "sweep, proc. ms"
    );
    for sheet in sheets {
        let text = sheet.text();
        let best = (0..15).map(|_| run(program, &text).1).fold(Seconds::MOST, Seconds::or);
        let [n, cables, breakers] = sheet.counts;
        println!(
            "{n:>8} {cables:>6} {breakers:>8} {:>10} {:>12.2} {:>15.2}",
            sheet.steps,
            best.clock * 1e3,
            best.processor * 1e3
        );
    }
}

fn main() {
    let words: Vec<String> = env::args().skip(1).collect();
    let Some(program) = words.first().map(PathBuf::from) else {
        eprintln!("{USAGE}");
        exit(2);
    };
    if words.get(1).is_some_and(|word| word == "growth") {
        return growth(&program);
    }
    let rounds = words.get(1).map_or(3, |w| w.parse().unwrap_or(3)).max(1);
    let names = words.get(2..).unwrap_or_default();
    let own = env::current_exe().expect("it has a path").with_file_name("sheet_sweep");
    println!(
        "{:<15} {:>14} {:>10} {:>10} {:>12} {:>15} {:>14} {:>17}",
        "sheet",
        "cases x steps",
        "sweep, ms",
        "Rust, ms",
        "times (wall)",
        "sweep, proc. ms",
        "Rust, proc. ms",
        "times (processor)"
    );
    for sheet in SHEETS {
        if !names.is_empty() && !names.iter().any(|name| name == sheet.name) {
            continue;
        }
        let text = sheet.text();
        let [mut best, mut right] = [Seconds::MOST; 2];
        let mut worked = 0.0;
        for _ in 0..rounds {
            if worked > ENOUGH {
                break;
            }
            let (expected, b) = run(&own, &text);
            right = right.or(b);
            worked += b.processor;
            // Ours is short: a few rounds for each of the other's.
            for _ in 0..5 {
                let (listing, a) = run(&program, &text);
                if listing != expected {
                    println!("{}: the listings differ", sheet.name);
                    exit(1);
                }
                best = best.or(a);
            }
        }
        let size = format!("{} x {}", sheet.counts[1] * 30, sheet.steps);
        println!(
            "{:<15} {:>14} {:>10.2} {:>10.1} {:>12.1} {:>15.2} {:>14.1} {:>17.1}",
            sheet.name,
            size,
            best.clock * 1e3,
            right.clock * 1e3,
            right.clock / best.clock,
            best.processor * 1e3,
            right.processor * 1e3,
            right.processor / best.processor
        );
    }
}
