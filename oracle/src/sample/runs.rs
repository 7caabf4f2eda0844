//! Fault runs and switching runs that no rule refuses, in portions, and kept runs.

use super::flows::station;
use super::steps::{cable, four};
use super::{answered, broken, last_rule};
use crate::jobs::{
    has_fault, FAULT_RUN, KEPT_FAULT_RUN, KEPT_SWITCHING_RUN, SWITCHING_RUN, TIMED_FAULT_RUN,
};
use crate::numbers::double;
use crate::plan::{Plan, HYBRID, LCC, MECHANICAL, MMC, SOLID_STATE};
use crate::rules::{INCEPTION, LAST_NUMBER, RESISTANCE};

pub type Calls<'a> = &'a [[u64; 2]];

pub const MOST: u64 = u64::MAX;
/// All at once, as far as the memory goes.
pub const WHOLE: Calls = &[[MOST, 4096]];

pub fn runs(plans: &mut Vec<Plan>) {
    faults(plans);
    breakers(plans);
    moments(plans);
    since_inception(plans);
    recoveries(plans);
    nearly_recovered(plans);
    roundings(plans);
    grids(plans);
    switchings(plans);
    for job in [FAULT_RUN, SWITCHING_RUN] {
        portions(job, plans);
        lengths(job, plans);
        to_the_end(job, plans);
        overflows(job, plans);
        full(job, plans);
    }
    kept(plans);
}

pub fn breaker(kind: u64, time: f64, second: f64) -> [u64; 7] {
    let [time, second, ka, mj] = [time, second, 16.0, 10.0].map(f64::to_bits);
    [0, 0, kind, time, second, ka, mj]
}

/// Two stations, a cable and a breaker: a record has 8 numbers. Of 20 steps of 0.1 ms the fault begins at the fourth and is cleared at
/// the eleventh; a switching is made at the third.
fn run(job: u64, calls: Calls) -> Plan {
    let mut plan = Plan::small(job);
    plan.times = [100f64, 2.0].map(f64::to_bits);
    plan.stations = vec![
        station(LCC, 0, 500.0, 1000.0),
        station(MMC, 2, 480.0, 700.0),
    ];
    plan.stations[1][2] = 1;
    plan.cables = vec![cable(0, 1, 2.0, 100.0, 40.0, 200.0)];
    plan.breakers = vec![breaker(MECHANICAL, 0.7, 0.0)];
    plan.counts = [2, 1, 1];
    if has_fault(job) {
        plan.event = vec![1, 0];
        plan.event.extend([0.5f64, 10.0, 0.3].map(f64::to_bits));
    }
    with_calls(plan, calls)
}

pub fn with_calls(mut plan: Plan, calls: Calls) -> Plan {
    let event = if plan.job == SWITCHING_RUN { 2 } else { 0 };
    plan.rest.truncate(event);
    plan.rest.push(calls.len() as u64);
    plan.rest.extend(calls.iter().flatten());
    plan
}

pub fn set_breakers(plan: &mut Plan, breakers: &[[u64; 7]]) {
    plan.breakers = breakers.to_vec();
    plan.counts[2] = breakers.len() as u64;
}

/// Every type, fractions and resistances at the ends of their ranges, a cable past the count.
fn faults(plans: &mut Vec<Plan>) {
    for fault_type in 0..3 {
        let mut plan = run(FAULT_RUN, WHOLE);
        plan.event[0] = fault_type;
        plans.push(plan);
    }
    for (cable, fraction, ohms) in [
        (0, 0.0, 10.0),
        (0, 1.0, 1.0),
        (0, 0.5, 0.0),
        (0, 0.5, RESISTANCE.high),
        (1, 0.5, 10.0),
        (LAST_NUMBER, 0.5, 10.0),
    ] {
        let mut plan = run(FAULT_RUN, WHOLE);
        plan.event[1] = cable;
        plan.event[2..4].copy_from_slice(&[fraction, ohms].map(f64::to_bits));
        plans.push(plan);
    }
}

/// Each kind alone, all together, none.
fn breakers(plans: &mut Vec<Plan>) {
    let kinds = [
        breaker(MECHANICAL, 1.0, 0.0),
        breaker(SOLID_STATE, 500.0, 0.1),
        breaker(HYBRID, 1.0, 600.0),
    ];
    let alone = kinds.iter().map(std::slice::from_ref);
    for breakers in alone.chain([&kinds[..], &[]]) {
        let mut plan = run(FAULT_RUN, WHOLE);
        set_breakers(&mut plan, breakers);
        plans.push(plan);
    }
}

/// Inceptions and clearings in the first step, in the last, in between, beside a step and never.
fn moments(plans: &mut Vec<Plan>) {
    let last = 19.0 * (100.0 / 1000.0);
    for (inception, clearing) in [
        (0.0, 0.0),
        (0.0, f64::from_bits(1)),
        (0.0, 0.1),
        (0.0, last),
        (0.0, f64::next_up(last)),
        (0.0, 100.0),
        (0.5, 0.0),
        (0.55, 0.3),
        (0.3, last - 0.3),
        (last, 0.0),
        (last, 0.1),
        (f64::next_up(last), 0.0),
        (2.0, 0.0),
        (INCEPTION.high, 0.0),
    ] {
        let mut plan = run(FAULT_RUN, WHOLE);
        plan.event[4] = f64::to_bits(inception);
        set_breakers(&mut plan, &[breaker(MECHANICAL, clearing, 0.0)]);
        plans.push(plan);
    }
    // Without a breaker nothing is cleared before the duration.
    let mut plan = run(FAULT_RUN, WHOLE);
    plan.event[4] = 0;
    set_breakers(&mut plan, &[]);
    plans.push(plan);
    // One step alone, and times that are raised.
    for (dt_us, duration_ms) in [(1000.0, 1.0), (1e6, 0.0), (0.0, 0.0), (300.0, 1.0)] {
        for clearing in [0.0, 0.1] {
            let mut plan = run(FAULT_RUN, WHOLE);
            plan.times = [dt_us, duration_ms].map(f64::to_bits);
            plan.event[4] = 0;
            set_breakers(&mut plan, &[breaker(MECHANICAL, clearing, 0.0)]);
            plans.push(plan);
        }
    }
}

/// Two stations of 100 kV, a cable of 1 ohm and nothing else, the fault from 0.8 ms on and a breaker of 0.2 ms. At 1 ms it is not
/// cleared, since 1 - 0.8 is less than 0.2, though 0.8 + 0.2 is 1.
fn since_inception(plans: &mut Vec<Plan>) {
    let mut plan = with_calls(Plan::small(FAULT_RUN), WHOLE);
    plan.times = [1000f64, 4.0].map(f64::to_bits);
    plan.stations = vec![plan.stations[0]; 2];
    plan.counts[0] = 2;
    plan.cables[0] = cable(0, 1, 1.0, 0.0, 0.0, 1.0);
    plan.breakers[0][3] = 0.2f64.to_bits();
    plan.event[4] = 0.8f64.to_bits();
    plans.push(plan);
}

/// Voltages that fall in some steps, and come back by a thousandth of the rated ones in each.
fn recoveries(plans: &mut Vec<Plan>) {
    for (ohms, steps) in [(100.0, 150.0), (100.0, 60.0), (200.0, 40.0), (20.0, 40.0)] {
        let mut plan = run(FAULT_RUN, WHOLE);
        plan.times[1] = f64::to_bits(steps / 10.0);
        plan.event[2..4].copy_from_slice(&[1.0, ohms].map(f64::to_bits));
        plans.push(plan);
    }
}

/// A voltage at 0.9 of the rated one when the fault is cleared, which has recovered, and a double less, which has not.
fn nearly_recovered(plans: &mut Vec<Plan>) {
    let with = |ohms: u64| {
        let mut plan = run(FAULT_RUN, &[[4, 4096]]);
        plan.stations.truncate(1);
        plan.counts[0] = 1;
        plan.event[3..].copy_from_slice(&[ohms, 0]);
        set_breakers(&mut plan, &[breaker(MECHANICAL, 0.0, 0.0)]);
        plan
    };
    // Refusal, stop, steps, records; then the first record: time, fault current, voltage.
    let has_recovered = |ohms: u64| {
        double(answered(&with(ohms).numbers())[6]) >= 0.9 * double(with(ohms).stations[0][3])
    };
    // From 1 ohm on, more of it leaves more voltage.
    let [mut less, mut least] = [1.0, RESISTANCE.high].map(f64::to_bits);
    while least - less > 1 {
        let ohms = less + (least - less) / 2;
        if has_recovered(ohms) {
            least = ohms;
        } else {
            less = ohms;
        }
    }
    plans.extend([with(least), with(less)]);
}

/// Times that are rounded in each product and quotient.
fn roundings(plans: &mut Vec<Plan>) {
    for job in [FAULT_RUN, SWITCHING_RUN] {
        for (dt_us, duration_ms) in [(30.0, 0.3), (210.0, 3.0), (33.3, 0.7)] {
            let mut plan = run(job, WHOLE);
            plan.times = [dt_us, duration_ms].map(f64::to_bits);
            plans.push(plan);
        }
    }
}

/// Cables to a station itself, of no length and with ends past the count; ids that are not positions; the least of all.
fn grids(plans: &mut Vec<Plan>) {
    let Plan {
        counts,
        stations,
        cables,
        ..
    } = four();
    for job in [FAULT_RUN, SWITCHING_RUN] {
        for (dt_us, ids) in [(0.1, [0, 1, 2, 3]), (10.0, [3, 2, 1, 0])] {
            let mut plan = run(job, &[[6, 4096]]);
            plan.times = [dt_us, 10.0 * dt_us / 1000.0].map(f64::to_bits);
            plan.stations = stations.clone();
            plan.cables = cables.clone();
            plan.counts[..2].copy_from_slice(&counts[..2]);
            for (station, id) in plan.stations.iter_mut().zip(ids) {
                station[2] = id;
            }
            if job == FAULT_RUN {
                plan.event[1] = ids[1];
                plan.event[4] = 0;
            }
            plans.push(plan);
        }
    }
}

/// Opened and closed, a breaker number below the count, at it and past it; no breaker, no cable, one step, which is none to switch in.
fn switchings(plans: &mut Vec<Plan>) {
    for open in [1, 0] {
        for number in [0, 1, 2, 3, u64::MAX] {
            let mut plan = run(SWITCHING_RUN, WHOLE);
            set_breakers(&mut plan, &[breaker(SOLID_STATE, 1.0, 0.1); 2]);
            plan.rest[..2].copy_from_slice(&[number, open]);
            plans.push(plan);
        }
        let mut plan = run(SWITCHING_RUN, WHOLE);
        plan.rest[1] = open;
        set_breakers(&mut plan, &[]);
        plans.push(plan.clone());
        plan.counts[1] = 0;
        plan.cables.clear();
        plans.push(plan.clone());
        plan.counts[0] = 1;
        plan.stations.truncate(1);
        plans.push(plan);
        for duration_ms in [0.1, 0.2, 1.0, 1.05] {
            let mut plan = run(SWITCHING_RUN, WHOLE);
            plan.rest[1] = open;
            plan.times[1] = f64::to_bits(duration_ms);
            plans.push(plan);
        }
    }
}

/// Portions of every size, and what the figures are where they end.
fn portions(job: u64, plans: &mut Vec<Plan>) {
    let single = [[1, 8]; 22];
    let lists: [Calls; 15] = [
        &[],
        &[[0, 0]],
        &[[0, 4096], [0, 0], [MOST, 0]],
        &single,
        &[[MOST, 160], [0, 0], [1, 8], [MOST, MOST]],
        &[[20, 160], [MOST, 4096]],
        &[[19, 160], [0, 8], [1, 7], [1, 8]],
        &[[MOST, 159], [MOST, 7], [MOST, 8]],
        &[[MOST, 7], [MOST, 8], [MOST, 9], [MOST, 15], [MOST, 16]],
        &[[5, 8], [5, 16], [5, 39], [5, 40], [5, 41], [5, MOST]],
        &[[1, 0], [1, 7], [2, 8], [2, 15], [2, 16], [3, 4096]],
        &[[3, 4096], [0, 4096], [7, 4096], [0, 7], [MOST, 4096]],
        &[[1 << 32, 1 << 32], [(1 << 32) + 1, 8]],
        &[[1 << 63, 4097], [0, MOST]],
        &[[7, 56], [7, 55], [1, 8], [MOST, 0]],
    ];
    for calls in lists {
        plans.push(run(job, calls));
    }
    // Left at each of the steps at which something begins, and beside them.
    for steps in [1, 2, 3, 4, 5, 9, 10, 11, 12, 13, 19] {
        plans.push(run(job, &[[steps, 4096]]));
    }
}

/// Beside the numbers of steps at which not all are recorded any more, in some calls; a record has 6 numbers.
fn lengths(job: u64, plans: &mut Vec<Plan>) {
    for steps in [
        4999.0, 5000.0, 5001.0, 9999.0, 10_000.0, 10_001.0, 14_999.0, 15_000.0, 15_001.0, 20_000.0,
        1e6,
    ] {
        let mut plan = run(
            job,
            &[
                [1, 6],
                [1, 0],
                [1, 5],
                [4, 6],
                [MOST, 12],
                [0, 0],
                [7, 17],
                [MOST, 0],
                [1000, 18],
            ],
        );
        plan.times = [10.0, steps / 100.0].map(f64::to_bits);
        plan.stations.truncate(1);
        plan.counts[0] = 1;
        if job == FAULT_RUN {
            plan.event[4] = 0.02f64.to_bits();
            set_breakers(&mut plan, &[breaker(SOLID_STATE, 20.0, 0.0)]);
        }
        plans.push(plan);
    }
}

/// Document 01's run of 10,000 steps to its end: 5,001 records, every second step and the last. One station, and of a fault one cable, so
/// that a record has few numbers.
fn to_the_end(job: u64, plans: &mut Vec<Plan>) {
    let mut plan = run(job, &[[MOST, 4096]; 7]);
    plan.times = [10f64, 100.0].map(f64::to_bits);
    plan.stations.truncate(1);
    plan.counts[0] = 1;
    set_breakers(&mut plan, &[]);
    if job == SWITCHING_RUN {
        plan.cables.clear();
        plan.counts[1] = 0;
    }
    plans.push(plan);
}

/// Steps so long that voltages and currents grow beyond all doubles, and on to what is no number.
fn overflows(job: u64, plans: &mut Vec<Plan>) {
    for dt_us in [5000.0, 1e6] {
        let mut plan = run(job, WHOLE);
        plan.times = [dt_us, 40.0 * dt_us / 1000.0].map(f64::to_bits);
        plan.cables = vec![cable(0, 1, 0.0, 0.0, 0.0, 1.0)];
        for station in &mut plan.stations {
            station[0] = MMC;
            station[1] = 0;
            station[10] = 0;
        }
        plan.breakers[0] = breaker(MECHANICAL, 30_000.0, 0.0);
        plans.push(plan);
    }
}

/// As many parts as there is room for: a record has 162 numbers, and 25 of them fit.
fn full(job: u64, plans: &mut Vec<Plan>) {
    let mut plan = run(job, &[[2, 4096], [MOST, 161], [MOST, 324]]);
    plan.stations = (0..32)
        .map(|i| {
            let mut station = station(i % 4, i, 500.0 - i as f64, 1000.0);
            station[2] = i;
            station
        })
        .collect();
    plan.cables = (0..64)
        .map(|k| cable(k % 32, (k + 1 + k / 32 * 4) % 32, 2.0, 100.0, 40.0, 200.0))
        .collect();
    plan.breakers = (0..32)
        .map(|k| breaker(k % 3, 900.0 - 10.0 * k as f64, 0.1))
        .collect();
    plan.counts = [32, 64, 32];
    if job == FAULT_RUN {
        plan.event[1] = 63;
        plan.event[4] = 0.1f64.to_bits();
    }
    plans.push(plan);
}

/// Kept runs with fewer steps made than there are, all of them, and more, and with each rule broken.
fn kept(plans: &mut Vec<Plan>) {
    for job in [KEPT_FAULT_RUN, KEPT_SWITCHING_RUN] {
        let with = |plan: &Plan, duration_ms: f64, made: u64| {
            let mut plan = plan.clone();
            plan.times = [1000.0, duration_ms].map(f64::to_bits);
            *plan.rest.last_mut().expect("the steps made") = made;
            plan
        };
        let small = Plan::small(job);
        for (duration_ms, most) in [(1.0, 1), (4.0, 4), (10_000.0, 10_000), (1e5, 100_000)] {
            for made in [0, most - 1, most, most + 1, 1 << 32, MOST] {
                plans.push(with(&small, duration_ms, made));
            }
        }
        for made in [999_999, 1_000_000, 1_000_001] {
            let mut plan = with(&small, 1000.0, made);
            plan.times[0] = 1f64.to_bits();
            plans.push(plan);
        }
        for rule in 1..=last_rule(job) {
            for made in [0, 3, 4, 5] {
                plans.push(broken(&with(&small, 4.0, made), rule));
            }
        }
    }
}

/// Fault runs on a grid whose times are set directly: below the least ones, at them and beside them, in range, and outside; with a
/// breaker that clears in the sixth step of the least length, and without, since the duration counts then. What `new` was handed is
/// the same, or other times, which change nothing.
pub fn at_set_times(plans: &mut Vec<Plan>) {
    let [least_us, least_ms] = [0.1, 0.001];
    let [tiny, nan] = [f64::from_bits(1), f64::NAN];
    let accepted = [
        (0.0, 0.002),
        (-0.0, 0.002),
        (tiny, 0.002),
        (0.05, 0.002),
        (f64::next_down(least_us), 0.002),
        (least_us, 0.002),
        (f64::next_up(least_us), 0.002),
        (100.0, 0.0),
        (100.0, -0.0),
        (100.0, 0.0005),
        (0.25, 0.0),
        (0.25, f64::next_down(least_ms)),
        (0.25, least_ms),
        (0.25, f64::next_up(least_ms)),
        (0.0, 0.0),
        (-0.0, -0.0),
        (0.05, 0.0005),
        (0.05, tiny),
        (100.0, 2.0),
        (300.0, 1.0),
        (1e6, 1e5),
    ];
    let clears = [breaker(SOLID_STATE, 0.5, 0.1)];
    for (dt_us, duration_ms) in accepted {
        for breakers in [&clears[..], &[]] {
            plans.push(at_times(dt_us, duration_ms, [1000.0, 1.0], breakers));
        }
    }
    for first in [
        [0.0, 0.0],
        [nan, nan],
        [-1.0, -1.0],
        [1e6, 1e5],
        [10.0, 0.1],
    ] {
        plans.push(at_times(0.05, 0.0005, first, &clears));
    }
    // Some steps at a time.
    let by_steps = at_times(0.05, 0.002, [10.0, 0.1], &clears);
    plans.push(with_calls(
        by_steps,
        &[[3, 4096], [MOST, 32], [0, 0], [9, 4096], WHOLE[0]],
    ));
    let refused = [
        (nan, 0.002),
        (0.05, nan),
        (nan, nan),
        (-1.0, 0.002),
        (0.05, -1.0),
        (-tiny, 0.002),
        (0.05, -tiny),
        (f64::INFINITY, 0.002),
        (0.05, f64::INFINITY),
        (f64::INFINITY, f64::INFINITY),
        (f64::NEG_INFINITY, f64::NEG_INFINITY),
        (f64::next_up(1e6), 0.002),
        (0.05, f64::next_up(1e5)),
    ];
    // By rule 5, and the most steps that there may be.
    let longest = [(0.0, 100.0), (0.0, f64::next_up(100.0)), (0.05, 1e5)];
    for (dt_us, duration_ms) in refused.into_iter().chain(longest) {
        let plan = at_times(dt_us, duration_ms, [1000.0, 1.0], &clears);
        plans.push(with_calls(plan, &[[2, 4096]]));
    }
    for rule in 1..=last_rule(TIMED_FAULT_RUN) {
        plans.push(broken(&Plan::small(TIMED_FAULT_RUN), rule));
    }
}

fn at_times(dt_us: f64, duration_ms: f64, first: [f64; 2], breakers: &[[u64; 7]]) -> Plan {
    let mut plan = run(TIMED_FAULT_RUN, WHOLE);
    plan.times = [dt_us, duration_ms].map(f64::to_bits);
    plan.first_times = first.map(f64::to_bits);
    plan.event[4] = 0;
    set_breakers(&mut plan, breakers);
    plan
}

#[cfg(test)]
mod tests {
    use super::*;

    #[test]
    fn cleared_by_the_difference() {
        let mut plans = Vec::new();
        since_inception(&mut plans);
        // Refusal, stop, steps and records; four records of eight numbers, peak, clearing time.
        let answer = answered(&plans[0].numbers());
        assert_eq!(answer[..4], [0, 0, 4, 4]);
        assert_eq!(double(answer[37]), 2.0);
    }

    /// The voltage is 0.9 of the rated one to the last bit, and the next one below it; the first has recovered in the step after it.
    #[test]
    fn beside_nine_tenths() {
        let mut plans = Vec::new();
        nearly_recovered(&mut plans);
        let [at, below] = [0, 1].map(|i| answered(&plans[i].numbers()));
        let least = 0.9 * 500.0;
        assert_eq!(double(at[6]), least);
        assert_eq!(double(below[6]), f64::next_down(least));
        let step_ms = 100.0 / 1000.0;
        // Four records of six numbers, then peak, clearing time, energy and recovery time.
        assert_eq!(
            [at, below].map(|answer| double(answer[31])),
            [step_ms, 2.0 * step_ms]
        );
    }
}
