//! The fixed jobs that the program `replay` is run on, but for the float operations: those on grids, then printed values.

mod circuits;
mod detections;
mod flows;
mod points;
mod printed;
mod runs;
mod steps;
mod sweeps;

use crate::draw::{self, Random};
use crate::jobs::{
    answer, has_fault, has_order, CIRCUIT, DETECTION, FAULT_RUN, FLOW, GRID_JOBS, LCC_POINT, STEP,
    SWEEP, SWITCHING_RUN, TIMES, VSC_POINT,
};
use crate::numbers::NAN;
use crate::plan::{Accepted, End, Plan, HYBRID, MECHANICAL, MMC, SOLID_STATE};

/// The jobs, in the order in which they are stored.
pub fn jobs() -> Vec<Vec<u64>> {
    let mut plans = Vec::new();
    examples(&mut plans);
    fields(&mut plans);
    not_counted(&mut plans);
    steps(&mut plans);
    tenths(&mut plans);
    rules(&mut plans);
    counts(&mut plans);
    times(&mut plans);
    clearing_times(&mut plans);
    flows::flows(&mut plans);
    points::points(&mut plans);
    runs::runs(&mut plans);
    detections::detections(&mut plans);
    steps::steps(&mut plans);
    circuits::circuits(&mut plans);
    let mut jobs: Vec<Vec<u64>> = plans.iter().map(Plan::numbers).collect();
    random(&mut jobs);
    // Later ones stand at the end.
    let mut plans = Vec::new();
    runs::at_set_times(&mut plans);
    sweeps::sweeps(&mut plans);
    jobs.extend(plans.iter().map(Plan::numbers));
    jobs.extend(printed::values());
    jobs
}

/// The studies of a whole grid.
const STUDIES: [u64; 5] = [FLOW, FAULT_RUN, SWITCHING_RUN, DETECTION, SWEEP];

fn with_times(job: u64, dt_us: f64, duration_ms: f64) -> Plan {
    Plan {
        times: [dt_us.to_bits(), duration_ms.to_bits()],
        ..Plan::small(job)
    }
}

fn with_rated_kv(job: u64, kv: f64) -> Plan {
    let mut plan = Plan::small(job);
    plan.stations[0][3] = kv.to_bits();
    plan
}

/// Document 01's own.
fn examples(plans: &mut Vec<Plan>) {
    plans.push(with_times(TIMES, 10.0, 100.0));
    plans.push(with_times(TIMES, 300.0, 1.0));
    for job in [FAULT_RUN, SWITCHING_RUN, SWEEP] {
        plans.push(with_times(job, 1.0, 1000.0));
        plans.push(with_times(job, 1.0, 1001.0));
    }
    for job in [FLOW, LCC_POINT, VSC_POINT, SWEEP] {
        plans.push(with_rated_kv(job, 1999.9));
        plans.push(with_rated_kv(job, 0.5));
    }
}

/// Every field at its ends, beside them, and far outside, in a job that is accepted otherwise.
fn fields(plans: &mut Vec<Plan>) {
    let mut point = Plan::small(LCC_POINT);
    point.stations[0][0] = MMC;
    at_ends(&point, 6, plans);
    at_ends(&Plan::small(SWITCHING_RUN), 7, plans);
    for kind in [MECHANICAL, SOLID_STATE, HYBRID] {
        let mut plan = Plan::small(SWEEP);
        plan.breakers[0][2] = kind;
        at_ends(&plan, 8, plans);
    }
    at_ends(&Plan::small(FAULT_RUN), 9, plans);
    at_ends(&Plan::small(SWEEP), 9, plans);
    // The longest step, so that no duration has too many, and the shortest duration, so that no step makes too many.
    at_ends(&with_times(SWITCHING_RUN, 1e6, 0.0), 4, plans);
}

fn at_ends(plan: &Plan, rule: u64, plans: &mut Vec<Plan>) {
    for field in plan.fields().iter().filter(|field| field.rule == rule) {
        let mut numbers: Vec<u64> = End::ALL
            .into_iter()
            .filter_map(|end| field.accepted.at(end))
            .collect();
        numbers.extend(match field.accepted {
            Accepted::Doubles(_) => [-0.0, -1.0, f64::INFINITY, f64::NEG_INFINITY]
                .map(f64::to_bits)
                .to_vec(),
            Accepted::Numbers(_) => vec![1 << 32, 1 << 53, u64::MAX],
        });
        for number in numbers {
            let mut plan = plan.clone();
            plan.set(field, number);
            plans.push(plan);
        }
    }
}

/// Submodules of what is no MMC, a second number of a mechanical breaker, any breaker number, any current.
fn not_counted(plans: &mut Vec<Plan>) {
    for topology in 0..4 {
        let mut plan = Plan::small(LCC_POINT);
        plan.stations[0][..2].copy_from_slice(&[topology, 65536]);
        plan.rest = vec![NAN];
        plans.push(plan);
    }
    for kind in [MECHANICAL, SOLID_STATE, HYBRID] {
        let mut plan = Plan::small(FLOW);
        plan.breakers[0][2] = kind;
        plan.breakers[0][4] = (-1f64).to_bits();
        plans.push(plan);
    }
    for fault_type in 0..3 {
        let mut plan = Plan::small(FAULT_RUN);
        plan.event[0] = fault_type;
        plan.rest = vec![2, 1, 0, u64::MAX, u64::MAX];
        plans.push(plan);
    }
    let mut plan = Plan::small(SWITCHING_RUN);
    plan.rest = vec![u64::MAX, 0, 1, 7, 4096];
    plans.push(plan);
}

/// Runs beside 1,000,000 steps, also of times that `new` raises.
fn steps(plans: &mut Vec<Plan>) {
    let pairs = [
        (1.0, 999.999),
        (1.0, 1000f64.next_down()),
        (1.0, 1000f64.next_up()),
        (1f64.next_down(), 1000.0),
        (1f64.next_up(), 1000.0),
        (0.0, 100.0),
        (0.0, 100f64.next_up()),
        (0.1, 100_000.0),
        (100.0, 100_000.0),
        (100f64.next_down(), 100_000.0),
        (1e6, 100_000.0),
        (0.0, 0.0),
    ];
    for job in [FAULT_RUN, SWITCHING_RUN, SWEEP] {
        for (dt_us, duration_ms) in pairs {
            plans.push(with_times(job, dt_us, duration_ms));
        }
    }
    // Studies that have no steps.
    for job in [FLOW, DETECTION] {
        plans.push(with_times(job, 1.0, 1001.0));
        plans.push(with_times(job, f64::NAN, f64::NAN));
    }
}

/// Low and high tenth of a sweep.
fn tenths(plans: &mut Vec<Plan>) {
    for (low, high) in [
        (0, 10),
        (10, 10),
        (9, 10),
        (10, 9),
        (1, 0),
        (0, 11),
        (11, 11),
        (11, 10),
        (11, 0),
        (0, u64::MAX),
        (u64::MAX, u64::MAX),
    ] {
        let mut plan = Plan::small(SWEEP);
        plan.event[2..].copy_from_slice(&[low, high]);
        plans.push(plan);
    }
}

/// In every study nothing broken, each rule alone, also where the study skips it, and each two that can be broken together. A step
/// and a circuit are refused as a fault run is, so of them each rule alone.
fn rules(plans: &mut Vec<Plan>) {
    for job in STUDIES {
        plans.push(Plan::small(job));
        for one in 1..=last_rule(job) {
            plans.push(broken(&Plan::small(job), one));
        }
        for (one, other) in pairs(job) {
            plans.push(broken(&broken(&Plan::small(job), one), other));
        }
    }
    for job in [STEP, CIRCUIT] {
        for one in 1..=last_rule(job) {
            plans.push(broken(&Plan::small(job), one));
        }
    }
}

/// Only a fault and an order have fields that rule 9 looks at, and only a sweep's start solves the flow.
fn last_rule(job: u64) -> u64 {
    match job {
        SWEEP => 10,
        _ if has_fault(job) || has_order(job) => 9,
        _ => 8,
    }
}

/// Two rules each, in the order in which they can be broken: rule 4 sets a time again that rule 5 has set.
fn pairs(job: u64) -> Vec<(u64, u64)> {
    let all = (1..=last_rule(job)).flat_map(|one| (1..one).map(move |other| (one, other)));
    // A part that is not there has no field.
    all.filter(|pair| ![(6, 1), (7, 2)].contains(pair))
        .collect()
}

/// The plan, and one rule more that refuses it.
fn broken(plan: &Plan, rule: u64) -> Plan {
    let mut plan = plan.clone();
    match rule {
        1 => {
            plan.counts[0] = 0;
            plan.stations.clear();
        }
        2 => {
            plan.counts[1] = 0;
            plan.cables.clear();
        }
        3 => set_breakers(&mut plan, 33),
        // Raised to the least step, so that with rule 5's duration there are too many.
        4 => plan.times[0] = (-1f64).to_bits(),
        5 => plan.times = [1f64.to_bits(), 1001f64.to_bits()],
        6 => plan.stations[0][3] = 0.5f64.to_bits(),
        7 => plan.cables[0][3] = (-1f64).to_bits(),
        8 => plan.breakers[0][6] = NAN,
        // The resistance: of an order the first number, of a fault the fourth.
        9 if has_order(plan.job) => plan.event[0] = (-1f64).to_bits(),
        9 => plan.event[3] = (-1f64).to_bits(),
        // A station more, which takes what no cable brings.
        10 => {
            plan.counts[0] += 1;
            plan.stations.push(plan.stations[0]);
            plan.stations[1][4] = 1000f64.to_bits();
        }
        _ => panic!("rule {rule}"),
    }
    plan
}

/// Repeats the first part of its kind, so that there are that many.
type SetCount = fn(&mut Plan, u64);

fn set_stations(plan: &mut Plan, count: u64) {
    plan.counts[0] = count;
    plan.stations = vec![plan.stations[0]; count.min(32) as usize];
}

fn set_cables(plan: &mut Plan, count: u64) {
    plan.counts[1] = count;
    plan.cables = vec![plan.cables[0]; count.min(64) as usize];
}

fn set_breakers(plan: &mut Plan, count: u64) {
    plan.counts[2] = count;
    plan.breakers = vec![plan.breakers[0]; count.min(32) as usize];
}

/// As many parts as there is room for, the last of them outside, one more, far more.
fn counts(plans: &mut Vec<Plan>) {
    let sets: [(SetCount, u64); 3] = [(set_stations, 32), (set_cables, 64), (set_breakers, 32)];
    let mut full = Plan::small(FLOW);
    for (set, room) in sets {
        set(&mut full, room);
        let mut plan = Plan::small(SWEEP);
        set(&mut plan, room);
        plans.push(plan);
        for job in [FLOW, SWEEP] {
            let mut plan = Plan::small(job);
            set(&mut plan, room + 1);
            plans.push(plan);
        }
    }
    plans.push(full);
    let mut plan = Plan::small(FAULT_RUN);
    set_stations(&mut plan, 32);
    plan.stations[31][3] = 0.5f64.to_bits();
    plans.push(plan);
    let mut plan = Plan::small(FAULT_RUN);
    set_cables(&mut plan, 64);
    plan.cables[63][3] = (-1f64).to_bits();
    plans.push(plan);
    let mut plan = Plan::small(FAULT_RUN);
    set_breakers(&mut plan, 32);
    plan.breakers[31][6] = NAN;
    plans.push(plan);
    for count in [(1 << 32) + 1, u64::MAX] {
        let mut plan = Plan::small(SWITCHING_RUN);
        set_breakers(&mut plan, count);
        plans.push(plan);
    }
    // No part at all, and none but a station.
    for job in STUDIES {
        let mut plan = Plan::small(job);
        plan.counts = [0, 0, 0];
        (plan.stations, plan.cables, plan.breakers) = Default::default();
        plans.push(plan.clone());
        plan.counts[0] = 1;
        plan.stations = Plan::small(job).stations;
        plans.push(plan);
    }
}

/// A grid without parts, for the times of a run.
fn no_parts(dt_us: f64, duration_ms: f64) -> Plan {
    Plan {
        counts: [0, 0, 0],
        stations: Vec::new(),
        cables: Vec::new(),
        breakers: Vec::new(),
        ..with_times(TIMES, dt_us, duration_ms)
    }
}

/// Steps where the recording interval changes, or the last step is recorded for itself; times that are raised; times that rule 4
/// would refuse.
fn times(plans: &mut Vec<Plan>) {
    for steps in [
        1.0, 2.0, 4999.0, 5000.0, 5001.0, 9999.0, 10_000.0, 10_001.0, 10_002.0, 14_999.0, 15_000.0,
        15_001.0, 15_002.0, 99_999.0, 100_000.0,
    ] {
        plans.push(no_parts(1000.0, steps));
    }
    let special = [
        0.0,
        -0.0,
        f64::from_bits(1),
        0.001,
        0.001f64.next_up(),
        0.1,
        0.1f64.next_down(),
        0.1f64.next_up(),
        1.0,
        -1.0,
        100_000.0,
        1e6,
        f64::MAX,
        f64::INFINITY,
        f64::NEG_INFINITY,
        f64::NAN,
    ];
    for dt_us in special {
        plans.push(no_parts(dt_us, 1.0));
        plans.push(no_parts(1.0, dt_us));
        plans.push(no_parts(dt_us, dt_us));
    }
    for (dt_us, duration_ms) in [
        (1.0, 999.0),
        (1.0, 999.999),
        (1.0, 1000f64.next_down()),
        (1.0, 1000.0),
        (1.0, 1000f64.next_up()),
        (1.0, 1000.001),
        (1.0, 1001.0),
        (7.0, 7000.0),
        (0.3, 300.0),
        (300.0, 1.2),
        (300.0, 1.2f64.next_up()),
    ] {
        plans.push(no_parts(dt_us, duration_ms));
    }
}

/// Breakers of each kind, alone and beside others.
fn clearing_times(plans: &mut Vec<Plan>) {
    let breaker = |kind: u64, time: f64, second: f64| {
        let mut breaker = [0; 7];
        breaker[2..5].copy_from_slice(&[kind, time.to_bits(), second.to_bits()]);
        breaker
    };
    let many = [
        breaker(MECHANICAL, 30.0, 0.0),
        breaker(SOLID_STATE, 500.0, 0.1),
        breaker(HYBRID, 10.0, 2000.0),
        breaker(HYBRID, 3.0, 100.0),
        breaker(MECHANICAL, 0.1, 1.0),
        breaker(SOLID_STATE, 0.1, 1.0),
        breaker(HYBRID, 0.1, 0.1),
        breaker(MECHANICAL, -0.0, 0.0),
        breaker(MECHANICAL, 0.0, f64::NAN),
        breaker(SOLID_STATE, 0.0, f64::NAN),
        breaker(HYBRID, 0.0, f64::NAN),
        breaker(HYBRID, f64::NAN, 0.0),
        breaker(HYBRID, f64::MAX, f64::MAX),
        breaker(HYBRID, f64::INFINITY, f64::NEG_INFINITY),
        breaker(SOLID_STATE, f64::INFINITY, 0.0),
        breaker(MECHANICAL, f64::INFINITY, 0.0),
        breaker(MECHANICAL, f64::NAN, 0.0),
        breaker(MECHANICAL, -5.0, 0.0),
    ];
    let mut add = |breakers: &[[u64; 7]]| {
        let mut plan = no_parts(10.0, 100.0);
        plan.counts[2] = breakers.len() as u64;
        plan.breakers = breakers.to_vec();
        plans.push(plan);
    };
    for one in many {
        add(&[one]);
    }
    add(&many);
    add(&many[..7]);
    let mut backwards = many;
    backwards.reverse();
    add(&backwards);
    // More than there is room for: the first 32 are there.
    for count in [32, 33, u64::MAX] {
        let mut plan = no_parts(10.0, 100.0);
        plan.counts[2] = count;
        plan.breakers = (1..33)
            .rev()
            .map(|k| breaker(MECHANICAL, f64::from(k), 0.0))
            .collect();
        plans.push(plan);
    }
    // A record of the most numbers, and of the counts cut.
    for count in [64, 65] {
        let mut plan = Plan::small(TIMES);
        set_cables(&mut plan, count);
        plans.push(plan);
    }
    for count in [32, 33] {
        let mut plan = Plan::small(TIMES);
        set_stations(&mut plan, count);
        plans.push(plan);
    }
}

/// How many random jobs of each number, and the most numbers that one has and that are answered to it.
const RANDOM: usize = 32;
const SHORT: usize = 90;
const SHORT_ANSWER: usize = 250;

fn random(jobs: &mut Vec<Vec<u64>>) {
    let mut random = Random::new(5);
    for (number, _) in GRID_JOBS {
        let mut left = RANDOM;
        while left > 0 {
            let job = draw::job(number, &mut random).numbers;
            if job.len() <= SHORT && answered(&job).len() <= SHORT_ANSWER {
                jobs.push(job);
                left -= 1;
            }
        }
    }
}

fn answered(job: &[u64]) -> Vec<u64> {
    let mut output = Vec::new();
    answer(&mut job.iter().copied(), &mut output).expect("a whole job");
    output
}

#[cfg(test)]
mod tests {
    use super::*;
    use crate::jobs::{before_refusal, is_kept, FLOATS};
    use crate::rules::checked;
    use crate::tally::{Circuits, Kinds};
    use std::collections::BTreeSet;

    fn refusal(numbers: Vec<u64>) -> u64 {
        answered(&numbers)[before_refusal(numbers[0])]
    }

    #[test]
    fn every_rule_of_every_study() {
        let mut met = BTreeSet::new();
        for job in jobs() {
            met.insert((job[0], refusal(job)));
        }
        let kept_or_times = |job: u64| is_kept(job) || job == TIMES;
        for (job, _) in GRID_JOBS
            .into_iter()
            .filter(|&(job, _)| !kept_or_times(job))
        {
            assert!(met.contains(&(job, 0)), "job {job}");
            for rule in checked(job) {
                assert!(met.contains(&(job, rule)), "job {job}, rule {rule}");
            }
        }
    }

    /// No accepted grid leads to a voltage that is no number, and none to an underdamped current without frequency; all else that is
    /// counted of random jobs is among the fixed ones.
    #[test]
    fn every_kind() {
        let mut kinds = Kinds::default();
        for job in jobs().into_iter().filter(|job| job[0] != FLOATS) {
            kinds.add(&job, &answered(&job));
        }
        assert_eq!(kinds.flows.not_finite, 0);
        assert!(kinds.flows.largest_kv > 1e11);
        let never = ["a NaN or infinite voltage", Circuits::NEVER];
        for (name, count) in kinds.counted() {
            assert_eq!(count == 0, never.contains(&name), "{name}");
        }
    }

    #[test]
    fn the_first_of_two_rules() {
        for job in STUDIES {
            for (one, other) in pairs(job) {
                let plan = broken(&broken(&Plan::small(job), one), other);
                let first = checked(job)
                    .into_iter()
                    .find(|&rule| rule == one || rule == other)
                    .unwrap_or(0);
                assert_eq!(refusal(plan.numbers()), first, "{job}: {one}, {other}");
            }
        }
    }

    /// Accepted at its ends, and refused by its rule beside them.
    #[test]
    fn every_field() {
        for job in [LCC_POINT, VSC_POINT, FAULT_RUN, SWEEP] {
            for kind in [MECHANICAL, SOLID_STATE, HYBRID] {
                let mut plan = with_times(job, 1e6, 1.0);
                plan.stations[0][0] = MMC;
                plan.breakers[0][2] = kind;
                for field in plan.fields() {
                    for end in End::ALL {
                        let Some(number) = field.accepted.at(end) else {
                            continue;
                        };
                        let mut plan = plan.clone();
                        plan.set(&field, number);
                        let rule = if end.is_accepted() { 0 } else { field.rule };
                        assert_eq!(refusal(plan.numbers()), rule, "{} {end:?}", field.name);
                    }
                }
            }
        }
    }
}
