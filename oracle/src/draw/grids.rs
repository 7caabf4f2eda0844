//! Jobs on grids: most fields lie well inside their ranges, and a few values stand at the ends of what the rules accept.

use super::{circuits, detections, points, runs, steps, sweeps, Drawn, Put, Random};
use crate::dc_switching::{total_steps, DcSwitchingSimulator};
use crate::grids::{BREAKERS, CABLES, STATIONS};
use crate::jobs::{
    has_fault, has_order, is_kept, is_point, CIRCUIT, DETECTION, FAULT_RUN, KEPT_SWEEP, LCC_POINT,
    STEP, SWEEP, SWITCHING_RUN, TIMED_FAULT_RUN, TIMES, VSC_POINT,
};
use crate::numbers::double;
use crate::plan::{Accepted, End, Field, Plan, MMC};
use crate::rules::{Range, LAST_NUMBER, LAST_TENTH, MOST_STEPS};

pub fn job(number: u64, random: &mut Random) -> Drawn {
    let aims = aims(number, random);
    let counts = counts(&aims, random);
    let mut plan = plan(number, counts, random);
    if aims.contains(&5) {
        plan.times = times_at_most_steps(random);
    }
    if number == TIMES {
        set_any_times(&mut plan, random);
    }
    let mut ends = Vec::new();
    for aim in aims {
        if has_order(number) && aim == 9 && random.below(4) == 0 {
            set_tenths(&mut plan, random);
        } else {
            ends.extend(set_an_end(&mut plan, aim, random));
        }
    }
    let mut put = seen_in(&plan);
    // A later value may stand in a field's place.
    ends.retain(|(field, _, number)| plan.number(field) == *number);
    put.extend(ends.into_iter().map(|(field, end, _)| Put {
        field: field.name,
        rule: field.rule,
        end,
    }));
    Drawn {
        numbers: plan.numbers(),
        put,
    }
}

/// The rules at whose ends values are set: none, or up to three. Often there are two, since the order decides then.
fn aims(job: u64, random: &mut Random) -> Vec<u64> {
    let aims = random.pick(&[0, 1, 1, 1, 2, 2, 2, 3]);
    (0..aims)
        .map(|_| match job {
            LCC_POINT | VSC_POINT => 6,
            // The last has many fields, and every other rule comes before it.
            _ if has_fault(job) || has_order(job) => {
                random.pick(&[1, 2, 3, 4, 5, 6, 7, 8, 9, 9, 9])
            }
            _ => 1 + random.below(8),
        })
        .collect()
}

const PARTS: [&str; 3] = ["stations", "cables", "breakers"];
const ROOM: [u64; 3] = [STATIONS, CABLES, BREAKERS];

/// Mostly small, at times as many as there is room for, and with rules 1 to 3 aimed at none, one more, or far more.
fn counts(aims: &[u64], random: &mut Random) -> [u64; 3] {
    let mut counts = ROOM.map(|room| match random.below(64) {
        0 => room,
        1 => 1 + random.below(room),
        _ => 1 + random.below(3),
    });
    if random.below(4) == 0 {
        counts[2] = 0;
    }
    if aims.contains(&1) {
        counts[0] = random.below(2);
    }
    if aims.contains(&2) {
        counts[1] = random.below(2);
    }
    if aims.contains(&3) {
        let which = random.below(3) as usize;
        counts[which] = match random.below(6) {
            0 | 1 => ROOM[which],
            2 | 3 => ROOM[which] + 1,
            4 => ROOM[which] + 2 + random.below(100),
            // Among them numbers whose last 32 digits are those of a small one.
            _ => random.pick(&[1 << 32, (1 << 32) + 1, 1 << 53, 1 << 63, u64::MAX]),
        };
    }
    counts
}

/// A job with that many parts, accepted but for its counts.
fn plan(job: u64, counts: [u64; 3], random: &mut Random) -> Plan {
    let mut plan = Plan::small(job);
    if is_point(job) {
        plan.stations = vec![station(random)];
        plan.rest = points::doubles(job, random);
    } else {
        plan.counts = counts;
        let parts = |i: usize| 0..counts[i].min(ROOM[i]);
        plan.stations = parts(0).map(|_| station(random)).collect();
        plan.cables = parts(1).map(|_| [0; 7]).collect();
        plan.breakers = parts(2).map(|_| breaker(random)).collect();
    }
    for field in plan.fields() {
        set_inside(&mut plan, &field, random);
    }
    plan.times = times(random);
    if has_fault(job) {
        plan.event[0] = random.below(3);
    }
    if has_order(job) {
        // Often all tenths, so that either can be set to any without passing the other.
        let low = random.below(LAST_TENTH + 1) * random.below(2);
        let high = match random.below(2) {
            0 => LAST_TENTH,
            _ => low + random.below(LAST_TENTH + 1 - low),
        };
        plan.event[2..].copy_from_slice(&[low, high]);
    }
    match job {
        FAULT_RUN | TIMED_FAULT_RUN => plan.rest = calls(random),
        DETECTION => plan.states = detections::states(&plan, random),
        STEP => {
            plan.rest = steps::rest(random);
            plan.states = steps::state(&plan, random);
        }
        CIRCUIT => plan.rest = circuits::rest(&plan, random),
        SWITCHING_RUN => {
            plan.rest = runs::switched(&plan, random);
            plan.rest.extend(calls(random));
        }
        SWEEP => {
            if random.below(8) > 0 {
                sweeps::put_to_rest(&mut plan);
            }
            plan.rest = sweeps::few_steps(random);
        }
        KEPT_SWEEP => plan.rest = sweeps::rest_of_kept(&plan, random),
        _ if is_kept(job) => plan.rest = runs::rest_of_kept(&plan, random),
        _ => {}
    }
    plan
}

/// A station of some topology. A number of submodules stands in it also where it does not count.
pub fn station(random: &mut Random) -> [u64; 11] {
    let mut station = [0; 11];
    station[0] = random.below(4);
    if station[0] != MMC {
        station[1] = magnitude(random);
    }
    station
}

/// A breaker of some kind. A second number stands in it also where it does not count.
pub fn breaker(random: &mut Random) -> [u64; 7] {
    let mut breaker = [0; 7];
    breaker[2] = random.below(3);
    breaker[4] = random.bits();
    breaker
}

/// A whole number of any size.
pub fn magnitude(random: &mut Random) -> u64 {
    let places = random.below(64);
    random.bits() >> places
}

fn calls(random: &mut Random) -> Vec<u64> {
    let k = random.below(5);
    let mut calls = vec![k];
    calls.extend((0..2 * k).map(|_| magnitude(random)));
    calls
}

pub fn set_inside(plan: &mut Plan, field: &Field, random: &mut Random) {
    let number = match field.accepted {
        Accepted::Doubles(range) => inside(range, random),
        Accepted::Numbers(last) => match random.below(2) {
            0 => random.below(last + 1),
            _ => random.below(4),
        },
    };
    plan.set(field, number);
}

pub fn inside(range: Range, random: &mut Random) -> u64 {
    let Range { low, high } = range;
    let part = random.fraction();
    let x = match random.below(3) {
        0 => low + part * (high - low),
        1 => (low + part * (high - low)).floor(),
        // Small, as most are.
        _ => low + part * part * part * (high - low) / 100.0,
    };
    x.to_bits()
}

/// Times with at most 900,001 steps.
pub fn times(random: &mut Random) -> [u64; 2] {
    let steps = match random.below(4) {
        // Beside a multiple of 5,000 the recording interval changes, or the last step is recorded for itself.
        0 => (5000 * (1 + random.below(180)) + random.below(3)) as f64 - 1.0,
        1 => 1.0 + random.below(20) as f64,
        _ => (random.fraction() * 900_000f64.ln()).exp(),
    };
    let dt_us = match random.below(3) {
        0 => 1000.0,
        1 => random.pick(&[0.0, 0.05, 0.1, 0.25, 0.3, 1.0, 7.0, 10.0, 300.0]),
        _ => (random.fraction() * 1000f64.ln()).exp(),
    };
    let duration_ms = f64::min(steps * (dt_us.max(0.1) / 1000.0), 100_000.0);
    [dt_us.to_bits(), duration_ms.to_bits()]
}

/// Times with 1,000,000 steps, one less or one more, or far more.
pub fn times_at_most_steps(random: &mut Random) -> [u64; 2] {
    let dt_us = random.pick(&[0.0, 0.1, 0.3, 0.5, 1.0, 1.0, 7.0, 10.0, 33.3, 99.0]);
    let steps = MOST_STEPS + random.below(3) as f64 - 1.0;
    let exact = steps * (f64::max(dt_us, 0.1) / 1000.0);
    let duration_ms = match random.below(8) {
        0 => exact.next_up(),
        1 => exact.next_down(),
        2 => exact + 1.0,
        3 => 100_000.0,
        _ => exact,
    };
    [dt_us.to_bits(), duration_ms.to_bits()]
}

/// Where nothing is refused: times of every size, and NaNs.
fn set_any_times(plan: &mut Plan, random: &mut Random) {
    for time in &mut plan.times {
        if random.below(6) == 0 {
            *time = any_double(random);
        }
    }
    for breaker in &mut plan.breakers {
        for time in &mut breaker[3..5] {
            if random.below(4) == 0 {
                *time = any_double(random);
            }
        }
    }
}

pub fn any_double(random: &mut Random) -> u64 {
    match random.below(4) {
        0 => random.bits(),
        1 => random.pick(&OUTSIDE).to_bits(),
        2 => some_nan(random),
        _ => random
            .pick(&[0.0f64, -0.0, 0.001, 0.1, 1.0, f64::MAX])
            .to_bits(),
    }
}

fn some_nan(random: &mut Random) -> u64 {
    f64::NAN.to_bits() | random.bits() >> 13 | random.below(2) << 63
}

/// Outside every range.
const OUTSIDE: [f64; 9] = [
    f64::INFINITY,
    f64::NEG_INFINITY,
    -1.0,
    -0.1,
    -1e-300,
    -65535.0,
    1e7,
    1e300,
    f64::MIN,
];

/// Sets one of the rule's fields to an end, or anywhere outside, if the job has such a field.
fn set_an_end(plan: &mut Plan, rule: u64, random: &mut Random) -> Option<(Field, End, u64)> {
    let mut fields = plan.fields();
    fields.retain(|field| field.rule == rule);
    if fields.is_empty() {
        return None;
    }
    let field = fields[random.below(fields.len() as u64) as usize];
    let (end, number) = match (field.accepted, random.pick(&End::ALL)) {
        (Accepted::Doubles(range), End::Low) if range.low == 0.0 => {
            (End::Low, random.pick(&[0.0f64, -0.0]).to_bits())
        }
        (Accepted::Doubles(_), End::Nan) => (End::Nan, some_nan(random)),
        (accepted, end) => match accepted.at(end) {
            Some(number) => (end, number),
            None => (End::Other, outside(accepted, random)),
        },
    };
    plan.set(&field, number);
    Some((field, end, number))
}

/// Sets the low tenth to the high one, or beyond it.
fn set_tenths(plan: &mut Plan, random: &mut Random) {
    let high = random.below(LAST_TENTH);
    let low = match random.below(3) {
        0 => high,
        1 => high + 1,
        _ => LAST_TENTH,
    };
    plan.event[2..].copy_from_slice(&[low, high]);
}

fn outside(accepted: Accepted, random: &mut Random) -> u64 {
    match accepted {
        Accepted::Doubles(_) => random.pick(&OUTSIDE).to_bits(),
        // Also numbers whose last 16 or 32 digits are those of a small one, and those that no double has.
        Accepted::Numbers(last) => {
            let small = random.below(10);
            random.pick(&[
                last + 2,
                LAST_NUMBER + 1 + small,
                (1 << 32) + small,
                1 << 53,
                (1 << 53) + 1,
                1 << 63,
                u64::MAX,
            ])
        }
    }
}

/// The ends that more than one number decides: counts, steps, tenths.
pub fn seen_in(plan: &Plan) -> Vec<Put> {
    let mut put = Vec::new();
    if is_point(plan.job) {
        return put;
    }
    let mut add = |field, rule, end| put.push(Put { field, rule, end });
    for ((count, name), rule) in plan.counts.into_iter().zip(PARTS).zip([1, 2]) {
        match count {
            0 => add(name, rule, End::Below),
            1 => add(name, rule, End::Low),
            _ => {}
        }
    }
    for ((count, name), room) in plan.counts.into_iter().zip(PARTS).zip(ROOM) {
        if count >= room {
            add(name, 3, beside(count, room));
        }
    }
    let [dt_us, duration_ms] = plan.times.map(double);
    let steps = total_steps(&DcSwitchingSimulator::new(dt_us, duration_ms)) as u64;
    match steps {
        1 => add("steps", 5, End::Low),
        n if n >= MOST_STEPS as u64 => add("steps", 5, beside(n, MOST_STEPS as u64)),
        _ => {}
    }
    if has_order(plan.job) {
        let [low, high] = [plan.event[2], plan.event[3]];
        if low >= high && low <= LAST_TENTH {
            add("low to high tenth", 9, beside(low, high));
        }
    }
    put
}

/// Where a number stands that is no less than the highest accepted one.
fn beside(number: u64, highest: u64) -> End {
    match number - highest {
        0 => End::High,
        1 => End::Above,
        _ => End::Other,
    }
}
