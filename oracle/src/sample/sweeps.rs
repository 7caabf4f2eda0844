//! Sweeps that no rule but 10 refuses, in portions, and kept sweeps.

use super::flows::station;
use super::runs::{breaker, set_breakers, with_calls, Calls, MOST, WHOLE};
use super::steps::cable;
use super::{answered, broken, last_rule, set_cables};
use crate::grids;
use crate::jobs::sweeps::Sweep;
use crate::jobs::{KEPT_SWEEP, SWEEP};
use crate::numbers::double;
use crate::plan::{Plan, LCC, MECHANICAL, MMC, SOLID_STATE};
use crate::rules::{BREAKING_CURRENT, ENERGY, LAST_NUMBER};

pub fn sweeps(plans: &mut Vec<Plan>) {
    sheet(plans);
    listing(plans);
    moments(plans);
    reasons(plans);
    limits(plans);
    ends(plans);
    portions(plans);
    left(plans);
    peaks(plans);
    detections(plans);
    overflow(plans);
    full(plans);
    not_converged(plans);
    kept(plans);
}

/// Document 01's sheet.
fn sheet(plans: &mut Vec<Plan>) {
    let mut plan = with_calls(Plan::small(SWEEP), WHOLE);
    plan.stations.push(plan.stations[0]);
    plan.counts[0] = 2;
    plan.cables = vec![cable(0, 1, 1.0, 0.0, 0.0, 1.0)];
    plan.event[3] = 0;
    plans.push(plan);
}

/// Two stations, a cable with a load and a breaker at the first station, which bears anything. Of 8 steps of 0.1 ms the fault, at one tenth
/// of the cable, begins at the second and is cleared at the sixth.
fn sweep(tenth: u64, calls: Calls) -> Plan {
    let mut plan = Plan::small(SWEEP);
    plan.times = [100f64, 0.8].map(f64::to_bits);
    plan.stations = vec![
        station(LCC, 0, 500.0, 1000.0),
        station(MMC, 2, 480.0, 700.0),
    ];
    plan.stations[1][2] = 1;
    plan.cables = vec![cable(0, 1, 2.0, 100.0, 40.0, 200.0)];
    plan.counts = [2, 1, 0];
    set_breakers(
        &mut plan,
        &[bears(0.4, 0, BREAKING_CURRENT.high, ENERGY.high)],
    );
    let [ohms, inception] = [10f64, 0.1].map(f64::to_bits);
    plan.event = vec![ohms, inception, tenth, tenth];
    with_calls(plan, calls)
}

/// A breaker at a station, with its time and what it bears.
fn bears(ms: f64, at: u64, ka: f64, mj: f64) -> [u64; 7] {
    let mut breaker = breaker(MECHANICAL, ms, 0.0);
    breaker[1] = at;
    breaker[5..].copy_from_slice(&[ka, mj].map(f64::to_bits));
    breaker
}

fn set_times(plan: &mut Plan, inception: f64, clearing: f64) {
    plan.event[1] = inception.to_bits();
    plan.breakers[0][3] = clearing.to_bits();
}

/// Several cables and tenths, of which some have a row: all at once, and in three calls.
fn listing(plans: &mut Vec<Plan>) {
    for calls in [WHOLE, &[[50, 24], [MOST, 16], [MOST, 4096]]] {
        let mut plan = sweep(0, calls);
        plan.cables.push(cable(1, 0, 1.0, 30.0, 5.0, 10.0));
        plan.counts[1] = 2;
        plan.event[3] = 1;
        plans.push(plan);
    }
    // All tenths of one cable, of three steps, so that each fraction shows.
    let mut plan = sweep(0, WHOLE);
    plan.times[1] = 0.3f64.to_bits();
    plan.event[1] = 0;
    plan.event[3] = 10;
    plans.push(plan);
}

/// Inceptions and clearings in the first step, in the last, in between and never; with a fault that is detected at once, after some
/// steps, or never.
fn moments(plans: &mut Vec<Plan>) {
    let step = 100.0 / 1000.0;
    let last = 7.0 * step;
    for (inception, clearing) in [
        (0.0, 0.0),
        (0.0, step),
        (0.0, 2.0 * step),
        (0.0, last),
        (0.0, f64::next_up(last)),
        (2.0 * step, 0.0),
        (last, 0.0),
        (last, step),
        (1.0, 0.0),
    ] {
        for ohms in [2.0, 150.0] {
            let mut plan = sweep(10, WHOLE);
            set_times(&mut plan, inception, clearing);
            plan.event[0] = f64::to_bits(ohms);
            plans.push(plan);
        }
    }
    let mut plan = sweep(5, WHOLE);
    set_breakers(&mut plan, &[]);
    plans.push(plan);
}

/// Each sum of reasons that there is.
fn reasons(plans: &mut Vec<Plan>) {
    for cleared in [true, false] {
        for (ka, mj) in [(0.0, ENERGY.high), (BREAKING_CURRENT.high, 0.0), (0.0, 0.0)] {
            for tenth in [0, 5] {
                let mut plan = sweep(tenth, WHOLE);
                let ms = if cleared { 0.4 } else { 1.0 };
                set_breakers(&mut plan, &[bears(ms, 1, ka, mj)]);
                plans.push(plan);
            }
        }
    }
}

/// The rows of a sweep whose one breaker is at an end of its cable and bears nothing, so that each case has one.
fn rows(plan: &Plan) -> Vec<[f64; 3]> {
    let mut plan = with_calls(plan.clone(), WHOLE);
    plan.breakers[0][5..].copy_from_slice(&[0, 0]);
    // Refusal, stop, steps and rows, then of each row the peak, the clearing step's current and the energy.
    let answer = answered(&plan.numbers());
    let rows = answer[4..].chunks_exact(8).take(answer[3] as usize);
    rows.map(|row| [row[4], row[5], row[6]].map(double))
        .collect()
}

/// A breaker that bears just what the second case asks of it, and one that bears a double less.
fn limits(plans: &mut Vec<Plan>) {
    let plan = sweep(5, WHOLE);
    let [_, ka, mj] = rows(&plan)[1];
    for (ka, mj) in [(ka, mj), (ka.next_down(), mj), (ka, mj.next_down())] {
        let mut plan = plan.clone();
        set_breakers(&mut plan, &[bears(0.4, 0, ka, mj)]);
        plans.push(plan);
    }
}

/// Breakers that bear nothing, at both ends, one of them, and none; ends past the count, one of which would be cut to the last station.
fn ends(plans: &mut Vec<Plan>) {
    let nothing = |at: u64| bears(0.4, at, 0.0, 0.0);
    for (to, breakers) in [
        (1, vec![nothing(2)]),
        (1, vec![nothing(2), nothing(0)]),
        (2, vec![nothing(1)]),
        (2, vec![nothing(2)]),
        (LAST_NUMBER, vec![nothing(1), nothing(LAST_NUMBER)]),
        (0, vec![nothing(0)]),
    ] {
        let mut plan = sweep(5, WHOLE);
        plan.cables[0][2] = to;
        plan.stations[1] = station(LCC, 0, 500.0, 0.0);
        set_breakers(&mut plan, &breakers);
        plans.push(plan);
    }
}

/// Portions of every size, of three cases that each have a row, and of three that have none.
fn portions(plans: &mut Vec<Plan>) {
    let single = [[1, 8]; 26];
    let lists: [Calls; 14] = [
        &[],
        &[[0, 0]],
        &[[0, 4096], [0, 0], [MOST, 0], [MOST, 7]],
        &single,
        &[[MOST, 24], [0, 0], [1, 8], [MOST, MOST]],
        &[[24, 24], [MOST, 4096]],
        &[[23, 24], [0, 8], [1, 7], [1, 8]],
        &[[MOST, 23], [MOST, 7], [MOST, 8]],
        &[[MOST, 7], [MOST, 8], [MOST, 15], [MOST, 16], [0, 0]],
        &[[7, 8], [8, 8], [9, 15], [8, 16]],
        &[[7, 0], [1, 0], [1, 8], [7, 7], [2, 16]],
        &[[8, 8], [0, 0], [8, 8], [8, 8], [8, 8]],
        &[[1 << 32, 1 << 32], [(1 << 32) + 1, 8]],
        &[[9, 4097], [0, MOST], [7, 16], [MOST, 8]],
    ];
    for calls in lists {
        plans.push(sweep(0, calls));
    }
    for calls in &lists[6..11] {
        plans.push(sweep(5, calls));
    }
}

/// Left before each step of the second case.
fn left(plans: &mut Vec<Plan>) {
    for steps in 8..16 {
        plans.push(sweep(5, &[[steps, 4096]]));
    }
    // Cleared at its first step, and undetected.
    for steps in 1..4 {
        let mut plan = sweep(5, &[[steps, 0]]);
        set_times(&mut plan, 0.0, 0.0);
        plans.push(plan);
    }
    // Nothing left to recover from.
    let mut plan = sweep(0, &[[7, 0]]);
    plan.stations[1][3] = plan.stations[0][3];
    plan.stations[1][4] = 0;
    plans.push(plan);
}

/// A current that swings in 15 ms: at the clearing step it is below its peak, and the breaker bears the one and not the other.
fn peaks(plans: &mut Vec<Plan>) {
    let mut plan = sweep(5, WHOLE);
    plan.times = [500f64, 8.0].map(f64::to_bits);
    plan.event[0] = 1000f64.to_bits();
    for station in &mut plan.stations {
        station[10] = 10f64.to_bits();
    }
    set_times(&mut plan, 0.0, 6.0);
    let [peak, ka, _] = rows(&plan)[1];
    let limit = (ka + peak) / 2.0;
    set_breakers(&mut plan, &[bears(6.0, 0, limit, ENERGY.high)]);
    plans.push(plan);
}

/// The first step of the first case that is detected.
fn first_detected(plan: &Plan) -> Option<u64> {
    let mut numbers = plan.numbers().into_iter().skip(1);
    let grid = grids::grid(&mut numbers).expect("a whole grid");
    let order = grids::order(&mut numbers).expect("a whole order");
    let sweep = Sweep::of(grid, order);
    sweep.detected_steps(sweep.cases[0]).first().copied()
}

/// The least resistance, from some ohms on, with which the first step that is detected is such a one.
fn set_detection(plan: &mut Plan, ohms: u32, is: impl Fn(u64) -> bool) -> u64 {
    for ohms in ohms..10 * ohms {
        plan.event[0] = f64::from(ohms).to_bits();
        if let Some(first) = first_detected(plan).filter(|&first| is(first)) {
            return first;
        }
    }
    panic!("no resistance has such a step");
}

/// The first step that is detected is the last, or the clearing one; of 10,000 steps, of which every second is recorded, the clearing one
/// that is not.
fn detections(plans: &mut Vec<Plan>) {
    let mut plan = sweep(10, WHOLE);
    set_times(&mut plan, 0.1, 1000.0);
    set_detection(&mut plan, 10, |first| first == 7);
    plans.push(plan);
    for (dt_us, duration_ms) in [(100.0, 0.8), (1.0, 10.0)] {
        let mut plan = sweep(10, WHOLE);
        plan.times = [dt_us, duration_ms].map(f64::to_bits);
        set_times(&mut plan, 0.0, 1000.0);
        let first = set_detection(&mut plan, 100, |first| first > 1 && first % 2 == 1);
        set_times(&mut plan, 0.0, first as f64 * (dt_us / 1000.0));
        plans.push(plan);
    }
}

/// Steps so long that voltages and currents grow beyond all doubles, and on to what is no number.
fn overflow(plans: &mut Vec<Plan>) {
    for steps in [4, 6, 12] {
        let mut plan = sweep(5, &[[steps, 4096]]);
        plan.times = [1e6f64, 15_000.0].map(f64::to_bits);
        plan.cables = vec![cable(0, 1, 0.0, 0.0, 0.0, 1.0)];
        plan.stations[1] = plan.stations[0];
        plan.stations[1][2..5].copy_from_slice(&[1, 500f64.to_bits(), 0]);
        set_times(&mut plan, 0.0, 30_000.0);
        plans.push(plan);
    }
}

/// As many parts as there is room for.
fn full(plans: &mut Vec<Plan>) {
    let mut plan = sweep(5, &[[190, 8], [100, 4096]]);
    plan.times = [10f64, 0.02].map(f64::to_bits);
    plan.stations = (0..32)
        .map(|i| {
            let mut station = station(i % 4, i, 500.0, 0.0);
            station[2] = i;
            station
        })
        .collect();
    plan.cables = (0..64)
        .map(|k| cable(k % 32, (k + 1 + k / 32 * 4) % 32, 2.0, 100.0, 40.0, 200.0))
        .collect();
    let breakers: Vec<[u64; 7]> = (0..32)
        .map(|k| {
            let mut breaker = breaker(SOLID_STATE, 900.0 - 10.0 * k as f64, 0.1);
            breaker[1] = k;
            breaker
        })
        .collect();
    set_breakers(&mut plan, &breakers);
    plan.counts = [32, 64, 32];
    plan.event[1] = 0;
    plans.push(plan);
}

/// More power than the cable carries, a load without a cable, voltages that three stations do not come to.
fn not_converged(plans: &mut Vec<Plan>) {
    let mut plan = sweep(5, WHOLE);
    plan.cables[0][3] = 100f64.to_bits();
    plans.push(plan);
    let mut plan = sweep(5, WHOLE);
    plan.cables[0][2] = 2;
    plans.push(plan);
    let mut plan = sweep(5, WHOLE);
    plan.stations.push(station(LCC, 0, 300.0, 900.0));
    plan.counts[0] = 3;
    plans.push(plan);
}

/// Kept sweeps of three cases of four steps, with a case number below the number of cases, at it and past it, and steps below those of
/// a case, as many and more; with each rule broken; and one whose flow has not converged.
fn kept(plans: &mut Vec<Plan>) {
    let small = |case: u64, made: u64| {
        let mut plan = Plan::small(KEPT_SWEEP);
        plan.times[1] = 4f64.to_bits();
        plan.event[3] = 0;
        plan.rest = vec![case, made];
        plan
    };
    for case in [0, 2, 3, 4, 5, MOST] {
        for made in [0, 1, 3, 4, 5, MOST] {
            plans.push(small(case, made));
        }
    }
    for (case, made) in [(0, 0), (3, 0)] {
        plans.push(broken(&small(case, made), 10));
        for rule in 1..=last_rule(KEPT_SWEEP) {
            plans.push(broken(&small(case, made), rule));
        }
    }
    // The most steps of a case, and the most cases.
    for (case, made) in [(32, 999_999), (32, 1_000_000), (33, 0), (33, 1), (34, 0)] {
        let mut plan = small(case, made);
        plan.times = [1f64, 1000.0].map(f64::to_bits);
        plan.event[3] = 10;
        plans.push(plan);
    }
    let mut plan = small(2112, 0);
    plan.event[3] = 10;
    set_cables(&mut plan, 64);
    plans.push(plan);
    for (low, high) in [(1, 0), (0, 11), (MOST, 0), (0, MOST), (MOST, MOST)] {
        for case in [0, 3] {
            let mut plan = small(case, 0);
            plan.event[2..].copy_from_slice(&[low, high]);
            plans.push(plan);
        }
    }
}
