//! Sweeps that no rule refuses, some that rule 10 refuses, their calls, and kept sweeps. Grids, tenths and steps are few, so that
//! the cases are; what the breakers bear lies beside what a case asks of them.

use super::grids::{inside, magnitude};
use super::runs::{
    drawn, keep_few_parts, long_times, read, set_breakers, set_fastest, set_moments, times,
};
use super::steps::{grid_of, resistance};
use super::{flows, power_of_ten, Drawn, Random};
use crate::dc_switching::{time_step_ms, total_steps};
use crate::grids::{self, CABLES, STATIONS};
use crate::jobs::runs::{Call, MOST_SPACE};
use crate::jobs::sweeps::{Case, Steps, Sweep, ROW};
use crate::jobs::{KEPT_SWEEP, SWEEP};
use crate::plan::Plan;
use crate::rules::{Range, BREAKING_CURRENT, ENERGY, LAST_NUMBER, LAST_TENTH};

pub fn job(random: &mut Random) -> Drawn {
    let mut plan = any_plan(SWEEP, random);
    set_breakers_beside_a_case(&mut plan, random);
    let sweep = read_sweep(&plan);
    plan.rest = calls(&sweep, random);
    drawn(plan)
}

/// Sets what the breakers bear beside what one of the cases asks of them, and at times the clearing at its detection.
pub fn set_breakers_beside_a_case(plan: &mut Plan, random: &mut Random) {
    let sweep = read_sweep(plan);
    let case = random.pick(&sweep.cases);
    let long = sweep.steps() > 5000;
    if long || random.below(4) == 0 {
        clear_at_detection(plan, case, random);
    }
    set_limits(plan, case, random);
}

/// A kept sweep on a grid that is accepted, with a case number around the number of cases and steps around those of a case.
pub fn kept(random: &mut Random) -> Drawn {
    let mut plan = any_plan(KEPT_SWEEP, random);
    plan.rest = rest_of_kept(&plan, random);
    drawn(plan)
}

/// Case number and steps made.
pub fn rest_of_kept(plan: &Plan, random: &mut Random) -> Vec<u64> {
    let grid = read(plan);
    let all = total_steps(&grid.simulator) as u64;
    let tenths = plan.event[3] - plan.event[2] + 1;
    let cases = 3 * plan.cables.len() as u64 * tenths;
    let [fewer, any] = [random.below(cases.max(1)), magnitude(random)];
    let case = random.pick(&[0, fewer, fewer, cases, cases, cases + 1, any, u64::MAX]);
    let [fewer, any] = [random.below(all), magnitude(random)];
    let made = random.pick(&[0, 0, 0, fewer, fewer, all - 1, all, all + 1, any, u64::MAX]);
    vec![case, made]
}

/// All voltages alike and no power, so that the flow converges.
pub fn put_to_rest(plan: &mut Plan) {
    let Some(&[_, _, _, kv, ..]) = plan.stations.first() else {
        return;
    };
    for station in &mut plan.stations {
        station[3..5].copy_from_slice(&[kv, 0]);
    }
}

/// Calls that make some hundred steps at most.
pub fn few_steps(random: &mut Random) -> Vec<u64> {
    let k = random.below(5);
    let mut calls = vec![k];
    for _ in 0..k {
        calls.extend([random.below(100), magnitude(random)]);
    }
    calls
}

/// A sweep of any length and size that is drawn.
fn any_plan(job: u64, random: &mut Random) -> Plan {
    let long = random.below(32) == 0;
    let parts = parts(random);
    sweep_plan(job, parts, long, random)
}

/// A sweep without breakers' limits and calls, on that many stations and at most that many cables.
pub fn sweep_plan(job: u64, parts: [u64; 2], long: bool, random: &mut Random) -> Plan {
    let mut plan = converging(job, parts, random);
    set_breakers(&mut plan, random);
    let steps = match random.below(16) {
        0..=3 => 1 + random.below(4),
        4 => 1 + random.below(300),
        _ => 1 + random.below(60),
    };
    plan.times = times(steps as f64, random);
    if long {
        keep_few_parts(&mut plan);
        plan.times = long_times(random);
    }
    let few = steps > 60 || plan.cables.len() > 3;
    let [low, high] = tenths(long || few, random);
    let ohms = if long {
        // So that the voltages fall slowly.
        power_of_ten(1.0, 5.0, random).to_bits()
    } else {
        resistance(random)
    };
    plan.event = vec![ohms, 0, low, high];
    set_moments(&mut plan, random);
    plan
}

/// How many stations and cables.
pub fn parts(random: &mut Random) -> [u64; 2] {
    match random.below(32) {
        0 => [STATIONS, CABLES],
        1..=3 => [4 + random.below(6), 1 + random.below(6)],
        _ => [
            random.pick(&[1, 2, 2, 2, 3, 3]),
            random.pick(&[1, 1, 1, 2, 2, 3]),
        ],
    }
}

/// A grid whose flow converges; of one in sixteen it does what it does.
fn converging(job: u64, [stations, cables]: [u64; 2], random: &mut Random) -> Plan {
    let any = random.below(16) == 0;
    let mut plan = lightened(stations, cables, job, random);
    for _ in 0..8 {
        if any || converges(&plan) {
            return plan;
        }
        plan = lightened(stations, cables, job, random);
    }
    put_to_rest(&mut plan);
    plan
}

fn converges(plan: &Plan) -> bool {
    let solution = read(plan).simulator.solve_dc_power_flow();
    solution.is_ok_and(|solution| solution.converged)
}

/// A grid whose stations often have a voltage in common, and often little power.
fn lightened(stations: u64, cables: u64, job: u64, random: &mut Random) -> Plan {
    let mut plan = grid_of(stations, job, random);
    plan.cables.truncate(cables as usize);
    plan.counts[1] = plan.cables.len() as u64;
    let common = random.below(4) > 0;
    let load = random.pick(&[Load::AsItIs, Load::None, Load::Light]);
    let kv = plan.stations[0][3];
    for station in &mut plan.stations {
        if common {
            station[3] = kv;
        }
        station[4] = match load {
            Load::AsItIs => station[4],
            Load::None => 0,
            Load::Light => power_of_ten(-6.0, 2.0, random).to_bits(),
        };
    }
    plan
}

#[derive(Clone, Copy)]
enum Load {
    AsItIs,
    None,
    Light,
}

/// Low and high, mostly the same.
fn tenths(one: bool, random: &mut Random) -> [u64; 2] {
    let any = random.below(LAST_TENTH + 1);
    let low = random.pick(&[0, 0, 1, any, any, LAST_TENTH]);
    let more = random.pick(&[0, 0, 0, 0, 1, 1, 2, LAST_TENTH]);
    let more = if one { 0 } else { more };
    [low, (low + more).min(LAST_TENTH)]
}

pub fn read_sweep(plan: &Plan) -> Sweep {
    let mut numbers = plan.numbers().into_iter().skip(1);
    let grid = grids::grid(&mut numbers).expect("a whole grid");
    let order = grids::order(&mut numbers).expect("a whole order");
    Sweep::of(grid, order)
}

/// Sets the fastest breaker's time so that it clears the case at the first step that is detected, if there is one.
fn clear_at_detection(plan: &mut Plan, case: Case, random: &mut Random) {
    let mut never_cleared = plan.clone();
    never_cleared.breakers.clear();
    never_cleared.counts[2] = 0;
    let sweep = read_sweep(&never_cleared);
    if let Some(&first) = sweep.detected_steps(case).first() {
        let t_ms = first as f64 * time_step_ms(&sweep.grid.simulator);
        set_fastest(plan, t_ms - sweep.order.inception_time_ms, random);
    }
}

/// Puts the breakers to the ends of a case's cable, past the count too, or elsewhere, and lets them bear what the case asks of them, a
/// double less or more, or far less or more.
fn set_limits(plan: &mut Plan, case: Case, random: &mut Random) {
    let sweep = read_sweep(plan);
    let closed = sweep.after(case, sweep.steps());
    let cable = plan.cables[case.cable];
    let stations = plan.counts[0];
    let peak = closed.variables.peak_fault_ka;
    for breaker in &mut plan.breakers {
        let [_, from, to, ..] = cable;
        let any = random.below(stations);
        breaker[1] = random.pick(&[from, from, to, to, stations - 1, any, LAST_NUMBER]);
        let ka = random.pick(&[closed.clearing_ka, closed.clearing_ka, peak]);
        breaker[5] = beside(ka, BREAKING_CURRENT, random);
        breaker[6] = beside(closed.variables.energy_mj, ENERGY, random);
    }
}

fn beside(x: f64, range: Range, random: &mut Random) -> u64 {
    let any = f64::from_bits(inside(range, random));
    let limit = random.pick(&[
        x,
        x.next_down(),
        x.next_up(),
        x / 2.0,
        2.0 * x,
        0.0,
        range.high,
        range.high,
        any,
    ]);
    flows::held(range, limit).to_bits()
}

/// How the calls of a job are.
#[derive(Clone, Copy)]
enum Style {
    /// As much as can be lent, until the end.
    Ample,
    /// A step at a time.
    Single,
    /// About a case at a time.
    Cases,
    /// The memory of some rows, and many steps.
    Rows,
    /// All kinds of calls.
    Mixed,
}

fn calls(sweep: &Sweep, random: &mut Random) -> Vec<u64> {
    let style = random.pick(&[
        Style::Ample,
        Style::Single,
        Style::Cases,
        Style::Rows,
        Style::Mixed,
    ]);
    let most = match style {
        Style::Ample => 10,
        _ => random.pick(&[0, 1, 3, 10, 30, 100]),
    };
    let mut steps = Steps::of(sweep);
    let mut after = random.below(3);
    let mut calls = Vec::new();
    while calls.len() < most {
        if steps.made == steps.all() {
            if after == 0 {
                break;
            }
            after -= 1;
        }
        let call = call(style, &steps, random);
        steps.advance(call, |i| sweep.row(sweep.cases[i]));
        calls.push(call);
    }
    let mut numbers = vec![calls.len() as u64];
    numbers.extend(calls.iter().flat_map(|call| [call.allowance, call.space]));
    numbers
}

fn call(style: Style, steps: &Steps, random: &mut Random) -> Call {
    let n = steps.of_a_case;
    let some = 1 + random.below(6);
    let any = magnitude(random);
    match style {
        Style::Ample => Call {
            allowance: random.pick(&[u64::MAX, u64::MAX, steps.all(), any]),
            space: random.pick(&[MOST_SPACE, MOST_SPACE, MOST_SPACE + 1, u64::MAX]),
        },
        Style::Single => Call {
            allowance: 1,
            space: random.pick(&[ROW, ROW, ROW + 1, 0, MOST_SPACE]),
        },
        Style::Cases => Call {
            allowance: random.pick(&[n - 1, n, n, n, n + 1, 2 * n]),
            space: random.pick(&[ROW - 1, ROW, 2 * ROW - 1, 2 * ROW, MOST_SPACE]),
        },
        Style::Rows => Call {
            allowance: random.pick(&[u64::MAX, steps.all(), some * n]),
            space: random.pick(&[ROW - 1, ROW, 2 * ROW - 1, 2 * ROW, some * ROW + 7]),
        },
        Style::Mixed => Call {
            allowance: random.pick(&[0, 1, 2, some, n - 1, n, n + 1, some * n, any, u64::MAX]),
            space: random.pick(&[
                0,
                ROW - 1,
                ROW,
                2 * ROW - 1,
                2 * ROW,
                some * ROW,
                any,
                MOST_SPACE,
            ]),
        },
    }
}

#[cfg(test)]
mod tests {
    use super::*;
    use crate::jobs::answer;
    use crate::tally::{KeptSweeps, Sweeps};

    /// Draws jobs of a number, and hands them on with the Rust's answers.
    fn each(times: usize, number: u64, mut met: impl FnMut(&[u64], &[u64])) {
        let mut random = Random::new(1);
        for _ in 0..times {
            let job = crate::draw::job(number, &mut random).numbers;
            let mut output = Vec::new();
            answer(&mut job.iter().copied(), &mut output).expect("a whole job");
            met(&job, &output);
        }
    }

    #[test]
    fn sweeps_of_every_kind() {
        let mut met = Sweeps::default();
        let mut refusals = [0; 11];
        each(3000, SWEEP, |job, answer| {
            refusals[answer[0] as usize] += 1;
            if answer[0] == 0 {
                met.add(job, answer);
            }
        });
        for (name, count) in met.counted() {
            assert!(count > 0, "{name}");
        }
        assert!(refusals.iter().all(|&count| count > 0), "{refusals:?}");
        assert!(refusals[0] > 2000, "{refusals:?}");
    }

    #[test]
    fn kept_sweeps_of_every_kind() {
        let mut met = KeptSweeps::default();
        each(12_000, KEPT_SWEEP, |job, answer| met.add(job, answer));
        for (name, count) in met.counted() {
            assert!(count > 0, "{name}");
        }
    }
}
