//! What the crate `speed` is asked for: a request, and those of each table.

use crate::rust;
use std::f64::consts::PI;

/// The works, by their numbers.
pub const ROOT: u64 = 1;
pub const E: u64 = 2;
pub const S: u64 = 3;
pub const C: u64 = 4;
pub const LCC_POINT: u64 = 5;
pub const VSC_POINT: u64 = 6;
pub const FAULT_CURRENT: u64 = 7;
pub const FASTEST: u64 = 8;
pub const REFUSALS: u64 = 9;
pub const FLOW: u64 = 10;
pub const STEP: u64 = 11;
pub const FAULT_RUN: u64 = 12;
pub const SWITCHING_RUN: u64 = 13;
pub const PRINTED: u64 = 14;

/// A work, how often it is done, at which argument first and how much more in each turn after it; when the fault begins; then the grid: power of each
/// station, resistance of each cable, and after how many ms the first breaker opens.
#[derive(Clone, Copy)]
pub struct Request {
    pub work: u64,
    pub count: u64,
    pub first: f64,
    pub step: f64,
    pub inception_ms: f64,
    pub dt_us: f64,
    pub duration_ms: f64,
    pub stations: u64,
    pub cables: u64,
    pub breakers: u64,
    pub power_mw: f64,
    pub ohms_per_km: f64,
    pub breaker_ms: f64,
}

/// No work, and a grid without parts.
pub const NOTHING: Request = Request {
    work: 0,
    count: 0,
    first: 0.0,
    step: 0.0,
    inception_ms: 0.0,
    dt_us: 1000.0,
    duration_ms: 100.0,
    stations: 0,
    cables: 0,
    breakers: 0,
    power_mw: 1000.0,
    ohms_per_km: 0.01,
    breaker_ms: 20.0,
};

impl Request {
    /// In the order of the lines.
    pub fn numbers(&self) -> [u64; 13] {
        [
            self.work,
            self.count,
            self.first.to_bits(),
            self.step.to_bits(),
            self.inception_ms.to_bits(),
            self.dt_us.to_bits(),
            self.duration_ms.to_bits(),
            self.stations,
            self.cables,
            self.breakers,
            self.power_mw.to_bits(),
            self.ohms_per_km.to_bits(),
            self.breaker_ms.to_bits(),
        ]
    }
}

/// A request that is timed, in so many rounds.
pub struct Row {
    pub name: String,
    pub request: Request,
    pub rounds: usize,
}

/// Times of one kind, printed in a unit of so many ns, and whose the other ones are.
pub struct Table {
    pub title: String,
    pub beside: &'static str,
    pub unit: &'static str,
    pub unit_ns: f64,
    pub rows: Vec<Row>,
}

const ROUNDS: usize = 15;

fn row(name: impl Into<String>, request: Request) -> Row {
    Row {
        name: name.into(),
        request,
        rounds: ROUNDS,
    }
}

fn in_ns(title: &str, rows: Vec<Row>) -> Table {
    Table {
        title: title.to_string(),
        beside: "Rust",
        unit: "ns",
        unit_ns: 1.0,
        rows,
    }
}

fn in_us(title: &str, rows: Vec<Row>) -> Table {
    Table {
        title: title.to_string(),
        beside: "Rust",
        unit: "us",
        unit_ns: 1000.0,
        rows,
    }
}

/// How often what takes nanoseconds is done in a round.
const CALLS: u64 = 20_000;

/// Stations and cables of the grids.
const GRIDS: [(u64, u64); 3] = [(2, 1), (12, 16), (32, 64)];

pub fn tables() -> Vec<Table> {
    let mut tables = vec![
        in_ns("floats", floats()),
        in_ns("fastest breaker", fastest()),
        in_ns("refusals", refusals()),
        in_ns("points", points()),
        in_us("flows", flows()),
        in_us("steps", steps()),
        in_ns("fault currents", currents()),
        Table {
            beside: "C library",
            ..in_ns("printing", vec![row("printed value", PRINTED_VALUES)])
        },
    ];
    for (steps, duration_ms, rounds) in LENGTHS {
        tables.push(in_us(&format!("{steps} steps"), runs(duration_ms, rounds)));
    }
    tables
}

fn floats() -> Vec<Row> {
    let spans = [
        ("root", ROOT, 0.0, 1e5),
        ("E", E, -700.0, 0.0),
        ("S", S, 0.0, 1e4),
        ("C", C, 0.0, PI),
    ];
    spans
        .map(|(name, work, first, last)| {
            let request = Request {
                work,
                count: CALLS,
                first,
                step: (last - first) / CALLS as f64,
                ..NOTHING
            };
            row(name, request)
        })
        .into()
}

/// In each turn the first breaker opens later.
fn fastest() -> Vec<Row> {
    [1, 8, 32]
        .map(|breakers| {
            let request = Request {
                work: FASTEST,
                count: CALLS,
                step: 0.001,
                breakers,
                ..NOTHING
            };
            row(breakers.to_string(), request)
        })
        .into()
}

/// In each turn duration, inception and the first breaker's time are others: those that rules 4, 8 and 9 accept.
fn refusals() -> Vec<Row> {
    [(2, 1, 1), (12, 16, 8), (32, 64, 32)]
        .map(|(stations, cables, breakers)| {
            let request = Request {
                work: REFUSALS,
                count: CALLS,
                step: 1.0,
                stations,
                cables,
                breakers,
                ..NOTHING
            };
            row(format!("{stations}/{cables}/{breakers}"), request)
        })
        .into()
}

fn points() -> Vec<Row> {
    [("LCC", LCC_POINT), ("VSC", VSC_POINT)]
        .map(|(name, work)| {
            let request = Request {
                work,
                count: CALLS,
                step: 0.001,
                ..NOTHING
            };
            row(name, request)
        })
        .into()
}

/// Power of each station, of the second one in the first turn, and how much more in each turn after it: so little that a few passes suffice, and more
/// than the cables carry.
const LOADS: [(f64, f64, f64); 2] = [(1e-6, 4e-6, 1e-12), (19_000.0, 19_000.0, 0.001)];

/// How many flows are solved in a round, by the grid.
const SOLVED: [u64; 3] = [2_000, 400, 100];

fn flows() -> Vec<Row> {
    let mut rows = Vec::new();
    for (power_mw, first, step) in LOADS {
        for ((stations, cables), count) in GRIDS.into_iter().zip(SOLVED) {
            let request = Request {
                work: FLOW,
                count,
                first,
                step,
                stations,
                cables,
                power_mw,
                ..NOTHING
            };
            let passes = rust::passes(&request);
            rows.push(row(
                format!("{stations}/{cables}, {passes} passes"),
                request,
            ));
        }
    }
    rows
}

/// How many steps are made in a round, by the grid: so many that the Rust takes about a millisecond, which is less than a turn of the scheduler where
/// the machine is shared.
const MADE: [u64; 3] = [4_000, 800, 120];

fn steps() -> Vec<Row> {
    let mut rows = Vec::new();
    for ((stations, cables), count) in GRIDS.into_iter().zip(MADE) {
        let request = Request {
            work: STEP,
            count,
            step: 1e-6,
            stations,
            cables,
            ..NOTHING
        };
        rows.push(row(format!("{stations}/{cables}"), request));
    }
    rows
}

/// With the first resistance a fault's current swings, and with the second it does not.
fn currents() -> Vec<Row> {
    [("swinging", 0.01), ("settling", 10.0)]
        .map(|(name, ohms_per_km)| {
            let request = Request {
                work: FAULT_CURRENT,
                count: 20_000,
                step: 0.001,
                stations: 2,
                cables: 1,
                ohms_per_km,
                ..NOTHING
            };
            row(name, request)
        })
        .into()
}

/// The steps of a run, each of a microsecond, its duration, and in how many rounds it is timed: of the first every step is recorded, of the second every
/// twentieth.
const LENGTHS: [(u64, f64, usize); 2] = [(5_000, 5.0, ROUNDS), (100_000, 100.0, 5)];

/// Inception, the breaker's time, and how many runs are made in a round: a fault that lasts to the end, one that is cleared in the first step, one that
/// does not begin, and a switching that opens all breakers.
const RUNS: [(&str, u64, f64, f64, u64); 4] = [
    ("lasting", FAULT_RUN, 0.0, 100_000.0, 1),
    ("cleared", FAULT_RUN, 0.0, 0.0, 5),
    ("waiting", FAULT_RUN, 100_000.0, 0.0, 20),
    ("opened", SWITCHING_RUN, 0.0, 1.0, 1),
];

fn runs(duration_ms: f64, rounds: usize) -> Vec<Row> {
    let mut rows = Vec::new();
    for (stations, cables) in GRIDS {
        for (name, work, inception_ms, breaker_ms, count) in RUNS {
            let request = Request {
                work,
                count,
                inception_ms,
                dt_us: 1.0,
                duration_ms,
                stations,
                cables,
                breakers: 1,
                breaker_ms,
                ..NOTHING
            };
            rows.push(Row {
                rounds,
                ..row(format!("{name} {stations}/{cables}"), request)
            });
        }
    }
    rows
}

/// Of either sign, and none of them round.
const PRINTED_VALUES: Request = Request {
    work: PRINTED,
    count: CALLS,
    first: -1000.0,
    step: 0.123457,
    ..NOTHING
};

/// What the crate's stored input asks for: each request of the tables for a few turns, but for the longest runs; then both sides of a range's end, and
/// a work that there is not; and printed values, which were added later.
pub fn stored() -> Vec<Request> {
    let rows = tables().into_iter().flat_map(|table| table.rows);
    let few = rows.filter(|row| row.rounds == ROUNDS).map(|row| Request {
        count: row.request.count.min(3),
        ..row.request
    });
    let (last, mut all): (Vec<Request>, Vec<Request>) = few.partition(|r| r.work == PRINTED);
    all.extend([AT_END, NOTHING]);
    all.extend(last);
    all
}

/// Three turns, the last of which is refused.
pub const AT_END: Request = Request {
    work: REFUSALS,
    count: 3,
    first: 99_999.0,
    step: 1.0,
    stations: 2,
    cables: 1,
    breakers: 1,
    ..NOTHING
};
