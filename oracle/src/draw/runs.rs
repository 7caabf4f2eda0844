//! Runs that no rule refuses, and their calls: mostly of a few steps, at times of so many that not all are recorded; portions of
//! every size, memory that is too small too.

use super::grids::{any_double, magnitude, seen_in, set_inside};
use super::steps::grid;
use super::{grids, power_of_ten, Drawn, Random};
use crate::dc_switching::{time_step_ms, total_steps};
use crate::grids::{grid_of, Grid, BREAKERS};
use crate::jobs::runs::{Call, Steps, MOST_SPACE};
use crate::jobs::{has_fault, has_order, KEPT_SWITCHING_RUN, SWITCHING_RUN, TIMED_FAULT_RUN};
use crate::plan::{Plan, HYBRID, MECHANICAL};
use crate::rules::{BREAKER_TIME, DURATION, INCEPTION};

/// A fault run or a switching run.
pub fn job(number: u64, random: &mut Random) -> Drawn {
    let mut plan = run_grid(number, random);
    let long = random.below(8) == 0;
    if long && random.below(2) == 0 {
        keep_few_parts(&mut plan);
    }
    plan.times = if long {
        long_times(random)
    } else {
        short_times(random)
    };
    set_moments(&mut plan, random);
    let grid = read(&plan);
    if number == SWITCHING_RUN {
        plan.rest = switched(&plan, random);
    } else {
        plan.rest.clear();
    }
    plan.rest.extend(calls(Steps::of(&grid), random));
    drawn(plan)
}

/// A fault run on a grid whose times are set directly: mostly below the least ones, at them or beside them, and one in eight outside
/// its range. What `new` was handed is anything.
pub fn timed(random: &mut Random) -> Drawn {
    let mut plan = run_grid(TIMED_FAULT_RUN, random);
    plan.first_times = [any_double(random), any_double(random)];
    plan.times = set_times(random);
    set_moments(&mut plan, random);
    let grid = read(&plan);
    plan.rest = calls(Steps::of(&grid), random);
    if random.below(8) == 0 {
        let which = random.below(2) as usize;
        plan.times[which] = any_double(random);
    }
    drawn(plan)
}

/// Of a time step below the least one, at it or beside it, some steps, or a duration that is so; or any accepted times.
fn set_times(random: &mut Random) -> [u64; 2] {
    if random.below(4) == 0 {
        return short_times(random);
    }
    let dt_us = beside_least(LEAST_TIME_STEP_US, random);
    let steps = (1 + random.below(60)) as f64;
    let duration_ms = match random.below(2) {
        0 => beside_least(LEAST_DURATION_MS, random),
        _ => steps * (dt_us.max(LEAST_TIME_STEP_US) / 1000.0),
    };
    [dt_us, duration_ms].map(f64::to_bits)
}

/// What `new` raises to at least.
const LEAST_TIME_STEP_US: f64 = 0.1;
const LEAST_DURATION_MS: f64 = 0.001;

/// A time from 0 to a little more than the least.
fn beside_least(least: f64, random: &mut Random) -> f64 {
    let any = random.fraction() * least;
    random.pick(&[
        0.0,
        0.0,
        -0.0,
        f64::from_bits(1),
        least / 2.0,
        least / 2.0,
        any,
        least.next_down(),
        least,
        least.next_up(),
        2.0 * least,
    ])
}

/// A kept run on a grid that is accepted, with steps made around the number of its steps.
pub fn kept(number: u64, random: &mut Random) -> Drawn {
    let mut plan = run_grid(number, random);
    set_moments(&mut plan, random);
    plan.rest = rest_of_kept(&plan, random);
    drawn(plan)
}

pub fn drawn(plan: Plan) -> Drawn {
    Drawn {
        put: seen_in(&plan),
        numbers: plan.numbers(),
    }
}

/// What follows the grid of a kept run, or its fault: the steps made.
pub fn rest_of_kept(plan: &Plan, random: &mut Random) -> Vec<u64> {
    let mut rest = match plan.job {
        KEPT_SWITCHING_RUN => switched(plan, random),
        _ => Vec::new(),
    };
    let all = total_steps(&read(plan).simulator) as u64;
    let [fewer, any] = [random.below(all), magnitude(random)];
    rest.push(random.pick(&[0, all - 1, all, all + 1, fewer, any, u64::MAX]));
    rest
}

/// Breaker number, and whether it opens.
pub fn switched(plan: &Plan, random: &mut Random) -> Vec<u64> {
    let breakers = plan.breakers.len() as u64;
    let [below, any] = [random.below(breakers.max(1)), magnitude(random)];
    let breaker = random.pick(&[below, below, 0, breakers, breakers + 1, any, u64::MAX]);
    vec![breaker, random.below(2)]
}

pub fn read(plan: &Plan) -> Grid {
    grid_of(plan.job, &mut plan.numbers().into_iter().skip(1)).expect("a whole grid")
}

/// A grid as for steps, with more breakers, and for a switching at times without a cable.
fn run_grid(number: u64, random: &mut Random) -> Plan {
    let mut plan = grid(number, random);
    if !has_fault(number) && random.below(8) == 0 {
        plan.cables.clear();
        plan.counts[1] = 0;
    }
    set_breakers(&mut plan, random);
    plan
}

/// None, some, or as many as there is room for.
pub fn set_breakers(plan: &mut Plan, random: &mut Random) {
    let breakers = match random.below(32) {
        0 => BREAKERS,
        _ => random.pick(&[0, 1, 1, 2, 3]),
    };
    put_breakers(plan, breakers, random);
}

pub fn put_breakers(plan: &mut Plan, breakers: u64, random: &mut Random) {
    plan.breakers = (0..breakers).map(|_| grids::breaker(random)).collect();
    plan.counts[2] = breakers;
    for field in plan.fields().iter().filter(|field| field.rule == 8) {
        set_inside(plan, field, random);
    }
}

/// One station and one cable, so that all records of a long run can be written.
pub fn keep_few_parts(plan: &mut Plan) {
    plan.stations.truncate(1);
    plan.cables.truncate(1);
    plan.breakers.truncate(1);
    plan.counts = plan.counts.map(|count| count.min(1));
}

/// Some steps of common length, or so long that voltages grow beyond all doubles.
fn short_times(random: &mut Random) -> [u64; 2] {
    let steps = match random.below(4) {
        0 => 1 + random.below(4),
        1 => 1 + random.below(300),
        _ => 1 + random.below(60),
    };
    times(steps as f64, random)
}

/// So many that the recording interval is 1, 2 or 3, and at times beside the numbers at which it changes.
pub fn long_times(random: &mut Random) -> [u64; 2] {
    let steps = match random.below(2) {
        0 => 5000 * (1 + random.below(3)) + random.below(4) - 1,
        _ => 5000 + random.below(13_000),
    };
    times(steps as f64, random)
}

pub fn times(steps: f64, random: &mut Random) -> [u64; 2] {
    let dt_us: f64 = match random.below(8) {
        0 => random.pick(&[0.0, 0.1, 1000.0]),
        1 => random.pick(&[5000.0, 1e5, 1e6]),
        2..=4 => random.pick(&[1.0, 5.0, 10.0, 50.0, 100.0, 300.0]),
        _ => power_of_ten(0.0, 2.5, random),
    };
    // The last step may be a part of one.
    let part = random.pick(&[0.0, 0.0, 0.5]);
    let duration_ms = (steps - part) * (dt_us.max(0.1) / 1000.0);
    [dt_us, duration_ms.min(DURATION.high)].map(f64::to_bits)
}

/// Sets the fault's inception and the fastest breaker's time so that they fall on a step of the run, before it or past its end.
pub fn set_moments(plan: &mut Plan, random: &mut Random) {
    let grid = read(plan);
    let dt_ms = time_step_ms(&grid.simulator);
    let last = total_steps(&grid.simulator) as u64 - 1;
    let at = |step: u64| step as f64 * dt_ms;
    let any = random.below(last + 1);
    let inception = match random.below(16) {
        0 => INCEPTION.high,
        1 => at(last + 1 + random.below(3)),
        2 => at(last),
        3 => at(any) + dt_ms / 3.0,
        4 | 5 => at(any),
        6..=9 => at(any / 8),
        _ => 0.0,
    };
    let inception = inception.min(INCEPTION.high);
    if has_fault(plan.job) {
        plan.event[4] = inception.to_bits();
    }
    if has_order(plan.job) {
        plan.event[1] = inception.to_bits();
    }
    let left = (at(last) - inception).max(0.0);
    let clearing = match random.below(8) {
        0 | 1 => 0.0,
        2 => left,
        3 => left + dt_ms,
        4 => left * random.fraction(),
        5 => at(any / 4),
        6 => at(any / 16),
        _ => return,
    };
    set_fastest(plan, clearing, random);
}

/// Gives one breaker the time, and those that are faster as much more.
pub fn set_fastest(plan: &mut Plan, ms: f64, random: &mut Random) {
    let Some(at) = plan.breakers.len().checked_sub(1) else {
        return;
    };
    let at = random.below(at as u64 + 1) as usize;
    // In microseconds, and with one more millisecond, the times are still accepted.
    let ms = ms.min(BREAKER_TIME.high / 1000.0 - 1.0);
    for (i, breaker) in plan.breakers.iter_mut().enumerate() {
        let ms = if i == at { ms } else { ms + 1.0 };
        let times = match breaker[2] {
            MECHANICAL => [ms, f64::from_bits(breaker[4])],
            HYBRID => {
                let opening = ms * random.pick(&[0.0, 1.0, 2.0]);
                [opening, (ms - opening * 0.3) * 1000.0]
            }
            _ => [ms * 1000.0, 0.1],
        };
        breaker[3..5].copy_from_slice(&times.map(f64::to_bits));
    }
}

/// The most numbers that the calls of a job write, or nearly.
const MOST_NUMBERS: u64 = 40_000;

/// How the calls of a job are.
#[derive(Clone, Copy)]
enum Style {
    /// As much as can be lent, until the end.
    Ample,
    /// A step at a time.
    Single,
    /// The memory of some records, and any number of steps.
    Records,
    /// All kinds of calls.
    Mixed,
}

fn calls(mut steps: Steps, random: &mut Random) -> Vec<u64> {
    let style = random.pick(&[Style::Ample, Style::Single, Style::Records, Style::Mixed]);
    let most = match style {
        Style::Ample => MOST_NUMBERS,
        _ => random.pick(&[0, 1, 3, 10, 30, 100]),
    };
    let mut after = random.below(3);
    let mut written = 0;
    let mut calls = Vec::new();
    while (calls.len() as u64) < most && written < MOST_NUMBERS {
        if steps.made == steps.all {
            if after == 0 {
                break;
            }
            after -= 1;
        }
        let call = call(style, &steps, random);
        written += 1 + steps.advance(call).records * steps.record;
        calls.push(call);
    }
    let mut numbers = vec![calls.len() as u64];
    numbers.extend(calls.iter().flat_map(|call| [call.allowance, call.space]));
    numbers
}

fn call(style: Style, steps: &Steps, random: &mut Random) -> Call {
    let record = steps.record;
    let some = 1 + random.below(20);
    let any = magnitude(random);
    match style {
        Style::Ample => Call {
            allowance: random.pick(&[u64::MAX, u64::MAX, steps.all, any]),
            space: random.pick(&[MOST_SPACE, MOST_SPACE, MOST_SPACE + 1, u64::MAX]),
        },
        Style::Single => Call {
            allowance: 1,
            space: random.pick(&[record, record, record, record + 1, MOST_SPACE]),
        },
        Style::Records => Call {
            allowance: random.pick(&[u64::MAX, steps.all, 4 * some]),
            space: record * some + random.pick(&[0, 0, 1, record - 1]),
        },
        Style::Mixed => Call {
            allowance: random.pick(&[0, 1, 2, some, some, any, steps.all, u64::MAX]),
            space: random.pick(&[
                0,
                record - 1,
                record,
                2 * record - 1,
                2 * record,
                some * record,
                some * record,
                MOST_SPACE,
                any,
            ]),
        },
    }
}

#[cfg(test)]
mod tests {
    use super::*;
    use crate::draw::each_accepted;
    use crate::jobs::{answer, FAULT_RUN, KEPT_FAULT_RUN};
    use crate::tally::{FaultRuns, KeptRuns, SwitchingRuns};

    #[test]
    fn accepted_and_of_every_kind() {
        let mut faults = FaultRuns::default();
        each_accepted(
            3000,
            |random| job(FAULT_RUN, random),
            |job, answer| faults.add(job, answer),
        );
        let mut switchings = SwitchingRuns::default();
        each_accepted(
            2000,
            |random| job(SWITCHING_RUN, random),
            |job, answer| switchings.add(job, answer),
        );
        for (name, count) in faults.counted().chain(switchings.counted()) {
            assert!(count > 0, "{name}");
        }
    }

    #[test]
    fn kept_runs_of_every_kind() {
        let mut met = KeptRuns::default();
        let mut random = Random::new(1);
        for number in [KEPT_FAULT_RUN, KEPT_SWITCHING_RUN].repeat(2000) {
            let job = crate::draw::job(number, &mut random).numbers;
            let mut output = Vec::new();
            answer(&mut job.iter().copied(), &mut output).expect("a whole job");
            met.add(&job, &output);
        }
        for (name, count) in met.counted() {
            assert!(count > 0, "{name}");
        }
    }
}
