//! What each number of an answer is, in words.

use crate::grids::{self, Grid};
use crate::jobs::{
    before_refusal, has_fault, has_order, is_kept, is_point, runs, CIRCUIT, DETECTION, FLOATS,
    FLOW, PRINTED, STEP, SWEEP, TIMED_FAULT_RUN, TIMES,
};

const POINT: [&str; 7] = ["id", "P", "V", "I", "angle", "power factor", "losses"];

const RUN_TIMES: [&str; 5] = [
    "steps",
    "recording interval",
    "recorded steps",
    "time step in ms",
    "duration in ms",
];

const FIGURES: [&str; 7] = [
    "peak fault current",
    "clearing time",
    "energy",
    "voltage recovery time",
    "largest di/dt",
    "whether the fault is cleared",
    "steps made in all",
];

const ROW: [&str; 8] = [
    "cable",
    "fault type",
    "tenth",
    "reasons",
    "peak",
    "clearing step's current",
    "energy",
    "loss in the cable",
];

const OPENED: [&str; 12] = [
    "number of the open case",
    "steps made in the open case",
    "whether the open case is detected",
    "clearing step's current of the open case",
    "peak of the open case",
    "largest di/dt of the open case",
    "energy of the open case",
    "whether the open case is cleared",
    "clearing time of the open case",
    "recovery time of the open case",
    "previous fault current of the open case",
    "whether the fault of the open case is active",
];

const CIRCUIT_NUMBERS: [&str; 7] = [
    "L in mH",
    "C in µF",
    "R in ohms",
    "the fault's own resistance",
    "V in kV",
    "fault current in kA",
    "what is left of the other current",
];

/// A name for each number of the answer that the Rust gives to a job.
pub fn names(job: &[u64], answer: &[u64]) -> Vec<String> {
    let number = job[0];
    if number == FLOATS {
        return own(&["result"]);
    }
    if number == PRINTED {
        return own(&["bytes 1 to 7", "bytes 8 to 14", "bytes 15 to 21"]);
    }
    if is_kept(number) {
        return own(&["stop, or 11 where it is refused"]);
    }
    let input = &mut job[1..].iter().copied();
    if is_point(number) {
        let mut names = own(&["refusal"]);
        names.extend(own(&POINT));
        names.truncate(answer.len());
        return names;
    }
    let grid = grids::grid_of(number, input).expect("a whole job");
    if number == TIMES {
        let mut names = own(&RUN_TIMES[..3]);
        names.extend(own(&["length of a record"]));
        names.extend(own(&RUN_TIMES[3..]));
        names.push("fastest clearing time".to_string());
        names.extend(each(
            "clearing time of breaker",
            grid.simulator.breakers.len(),
        ));
        return names;
    }
    let mut names = if number == TIMED_FAULT_RUN {
        own(&RUN_TIMES)
    } else {
        Vec::new()
    };
    names.push("refusal".to_string());
    if answer[before_refusal(number)] != 0 {
        return names;
    }
    match number {
        FLOW => {
            names.extend(own(&["whether it converged", "passes", "total loss"]));
            for station in 0..grid.simulator.stations.len() {
                names.extend(POINT.map(|name| format!("{name} of station {station}")));
            }
            names.extend(each("loss of cable", grid.simulator.cables.len()));
        }
        DETECTION => names.push("whether a fault is detected".to_string()),
        STEP => names.extend(network(&grid)),
        CIRCUIT => names.extend(own(&CIRCUIT_NUMBERS)),
        SWEEP => {
            calls(job, input, answer, ("row", &own(&ROW)), &mut names);
            names.extend(own(&OPENED));
            names.extend(
                state(&grid)
                    .into_iter()
                    .map(|name| format!("{name} of the open case")),
            );
        }
        _ => {
            calls(job, input, answer, ("record", &state(&grid)), &mut names);
            names.extend(own(&FIGURES));
        }
    }
    names
}

fn own(names: &[&str]) -> Vec<String> {
    names.iter().map(|name| name.to_string()).collect()
}

fn each(what: &str, n: usize) -> Vec<String> {
    (0..n).map(|k| format!("{what} {k}")).collect()
}

/// Station voltages, station currents, cable currents.
fn network(grid: &Grid) -> Vec<String> {
    let [stations, cables] = [grid.simulator.stations.len(), grid.simulator.cables.len()];
    let mut names = each("voltage of station", stations);
    names.extend(each("current of station", stations));
    names.extend(each("current of cable", cables));
    names
}

/// A record, or the state of an open case.
fn state(grid: &Grid) -> Vec<String> {
    let mut names = own(&["time", "fault current"]);
    names.extend(network(grid));
    names.extend(each("state of breaker", grid.simulator.breakers.len()));
    names
}

/// Of each call its stop, its steps, how many rows or records it has, and those.
fn calls(
    job: &[u64],
    input: &mut impl Iterator<Item = u64>,
    answer: &[u64],
    (what, columns): (&str, &[String]),
    names: &mut Vec<String>,
) {
    let event = match job[0] {
        number if has_fault(number) => 5,
        number if has_order(number) => 4,
        _ => 2,
    };
    let all = runs::calls(&mut input.skip(event))
        .expect("a whole job")
        .len();
    for call in 1..=all {
        names.extend(
            ["stop".to_string(), "steps".to_string(), format!("{what}s")]
                .map(|name| format!("{name} of call {call}")),
        );
        for k in 1..=answer[names.len() - 1] {
            names.extend(
                columns
                    .iter()
                    .map(|name| format!("call {call}, {name} of {what} {k}")),
            );
        }
    }
}

#[cfg(test)]
mod tests {
    use super::*;
    use crate::draw::{self, Random};
    use crate::jobs::{answer, GRID_JOBS};
    use crate::sample;

    #[test]
    fn a_name_for_each_number() {
        let mut random = Random::new(1);
        let drawn = GRID_JOBS.iter().cycle().take(700);
        let drawn: Vec<_> = drawn
            .map(|&(n, _)| draw::job(n, &mut random).numbers)
            .collect();
        for job in sample::jobs().into_iter().chain(drawn) {
            let mut numbers = Vec::new();
            answer(&mut job.iter().copied(), &mut numbers).expect("a whole job");
            assert_eq!(names(&job, &numbers).len(), numbers.len(), "{job:?}");
        }
    }
}
