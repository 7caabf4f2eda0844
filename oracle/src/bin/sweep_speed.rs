//! Times whole sweeps: the published fault run on each case, in this process, beside a program that is given the same sweeps as jobs
//! of the replay bench. What the program takes to answer no job at all is taken off.

use oracle::dc_switching::DcTransientResult;
use oracle::grids;
use oracle::jobs::sweeps::Sweep;
use oracle::jobs::{answer, SWEEP};
use oracle::numbers::{alike, write_number, Numbers};
use oracle::plan::{Plan, MECHANICAL};
use oracle::rules;
use std::hint::black_box;
use std::io::Write;
use std::process::{exit, Command, Stdio};
use std::time::Instant;
use std::{env, thread};

const USAGE: &str =
    "sweep_speed PROGRAM [ARGS..]   times whole sweeps of PROGRAM beside the Rust's";

/// A sweep that is timed.
struct Timed {
    name: &'static str,
    /// Stations, cables, breakers.
    counts: [u64; 3],
    /// Of a cable, from the first on.
    tenths: u64,
    /// How many microseconds the breakers take.
    clearing_us: f64,
    /// How often the program is given the sweep.
    times: usize,
    /// In which both are timed in turns; the best counts.
    rounds: usize,
}

/// A case has 5,000 steps of a microsecond.
const DURATION_MS: f64 = 5.0;
const NEVER_US: f64 = 1e7;

const SWEEPS: [Timed; 4] = [
    Timed {
        name: "pair",
        counts: [2, 1, 2],
        tenths: 11,
        clearing_us: NEVER_US,
        times: 20,
        rounds: 7,
    },
    Timed {
        name: "12/16/12, cleared",
        counts: [12, 16, 12],
        tenths: 1,
        clearing_us: 100.0,
        times: 20,
        rounds: 7,
    },
    Timed {
        name: "12/16/12",
        counts: [12, 16, 12],
        tenths: 1,
        clearing_us: NEVER_US,
        times: 4,
        rounds: 7,
    },
    Timed {
        name: "32/64/32",
        counts: [32, 64, 32],
        tenths: 1,
        clearing_us: NEVER_US,
        times: 1,
        rounds: 3,
    },
];

impl Timed {
    /// A ring of stations with chords, of the four topologies in turn and without load, with the faults in the middle of the cables.
    fn plan(&self) -> Plan {
        let [n, cables, breakers] = self.counts;
        let mut plan = Plan::small(SWEEP);
        plan.counts = self.counts;
        plan.times = [1.0, DURATION_MS].map(f64::to_bits);
        plan.stations = (0..n).map(station).collect();
        plan.cables = (0..cables).map(|k| cable(k, n)).collect();
        plan.breakers = (0..breakers).map(|k| self.breaker(k)).collect();
        let low = 5 - self.tenths / 2;
        let ohms = 10f64.to_bits();
        plan.event = vec![ohms, 0, low, low + self.tenths - 1];
        // A call writes 512 rows at most.
        plan.rest = vec![5];
        plan.rest.extend([u64::MAX; 10]);
        plan
    }

    fn breaker(&self, k: u64) -> [u64; 7] {
        let [ms, ka, mj] = [self.clearing_us / 1000.0, 16.0, 10.0].map(f64::to_bits);
        [k, k, MECHANICAL, ms, 0, ka, mj]
    }
}

fn station(i: u64) -> [u64; 11] {
    let doubles = [320.0, 0.0, 0.15, 3.0, 15.0, 0.1, 50.0, 10_000.0].map(f64::to_bits);
    let mut station = [i % 4, 200, i, 0, 0, 0, 0, 0, 0, 0, 0];
    station[3..].copy_from_slice(&doubles);
    station
}

fn cable(k: u64, n: u64) -> [u64; 7] {
    let doubles = [0.01, 0.5, 0.2, 100.0].map(f64::to_bits);
    let mut cable = [k, k % n, (k + 1 + k / n * 4) % n, 0, 0, 0, 0];
    cable[3..].copy_from_slice(&doubles);
    cable
}

/// The published run on each case, and nothing else.
fn simulate(sweep: &Sweep) -> usize {
    let cases = sweep.cases.iter();
    let simulated = cases.map(|&case| {
        let run = sweep.grid.simulator.simulate_fault(&sweep.fault(case));
        let DcTransientResult { states, .. } = black_box(run.expect("rules 1 and 2"));
        states.len()
    });
    simulated.sum()
}

/// The program's seconds from its start to its end, and its answers.
fn run(program: &[String], input: &[u8]) -> (f64, Vec<u8>) {
    let began = Instant::now();
    let child = Command::new(&program[0])
        .args(&program[1..])
        .stdin(Stdio::piped())
        .stdout(Stdio::piped())
        .spawn();
    let mut child = child.unwrap_or_else(|e| {
        eprintln!("{}: {e}", program[0]);
        exit(2)
    });
    let mut stdin = child.stdin.take().expect("standard input is a pipe");
    let output = thread::scope(|scope| {
        // In a thread of its own: a program answers while it still reads.
        scope.spawn(move || stdin.write_all(input));
        child.wait_with_output().expect("the program ends")
    });
    (began.elapsed().as_secs_f64(), output.stdout)
}

fn lines(numbers: &[u64], times: usize) -> Vec<u8> {
    let mut lines = Vec::new();
    for &n in numbers {
        write_number(&mut lines, n).expect("memory takes it");
    }
    lines.repeat(times)
}

/// Prints the times of a sweep, and says how many numbers of the program's answers differ from the Rust's.
fn time(timed: &Timed, program: &[String]) -> usize {
    let numbers = timed.plan().numbers();
    let mut input = numbers[1..].iter().copied();
    let grid = grids::grid(&mut input).expect("a whole grid");
    let order = grids::order(&mut input).expect("a whole order");
    assert_eq!(rules::sweep(&grid, &order), 0, "the sweep is refused");
    let sweep = Sweep::of(grid, order);
    let jobs = lines(&numbers, timed.times);
    let [mut rust, mut nothing, mut program_s] = [f64::INFINITY; 3];
    let mut answers = Vec::new();
    for _ in 0..timed.rounds {
        let began = Instant::now();
        black_box(simulate(black_box(&sweep)));
        rust = rust.min(began.elapsed().as_secs_f64());
        nothing = nothing.min(run(program, &[]).0);
        let (s, output) = run(program, &jobs);
        program_s = program_s.min(s);
        answers = output;
    }
    let each = (program_s - nothing) / timed.times as f64;
    println!(
        "{:<18} {:>6} {:>6} {:>11.2} {:>11.3} {:>8.1}",
        timed.name,
        sweep.cases.len(),
        sweep.steps(),
        1e3 * rust,
        1e3 * each,
        rust / each
    );
    differences(&numbers, timed.times, &answers)
}

fn differences(numbers: &[u64], times: usize, answers: &[u8]) -> usize {
    let mut right = Vec::new();
    answer(&mut numbers.iter().copied(), &mut right).expect("a whole job");
    let right = right.repeat(times);
    let given: Vec<u64> = Numbers::new(answers).collect();
    let pairs = given.iter().zip(&right);
    pairs.filter(|(&a, &b)| !alike(a, b)).count() + given.len().abs_diff(right.len())
}

fn main() {
    let program: Vec<String> = env::args().skip(1).collect();
    if program.is_empty() {
        eprintln!("{USAGE}");
        exit(2);
    }
    println!(
        "{:<18} {:>6} {:>6} {:>11} {:>11} {:>8}",
        "sweep", "cases", "steps", "Rust, ms", "program, ms", "times"
    );
    let different: usize = SWEEPS.iter().map(|timed| time(timed, &program)).sum();
    println!("{different} numbers differ");
    exit(if different == 0 { 0 } else { 1 });
}
