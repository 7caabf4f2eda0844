//! Steps that no rule refuses: grids of every shape, states that are plausible, and at times any doubles.

use super::flows::{ends, held, stations};
use super::grids::{breaker, inside, seen_in, set_inside, times};
use super::{any_form, neighbour, power_of_ten, Drawn, Random};
use crate::grids::CABLES;
use crate::jobs::{has_fault, STEP};
use crate::numbers::double;
use crate::plan::{Plan, MMC};
use crate::rules::{
    Range, FRACTION, INCEPTION, LAST_NUMBER, LENGTH, PER_KM, RATED_KV, RATED_MW, RESISTANCE,
    SUBMODULE_CAPACITANCE,
};

pub fn job(random: &mut Random) -> Drawn {
    let mut plan = grid(STEP, random);
    plan.rest = rest(random);
    plan.states = state(&plan, random);
    Drawn {
        put: seen_in(&plan),
        numbers: plan.numbers(),
    }
}

/// A job on a grid, with a fault if it has one, which no rule of a fault run refuses. Half of the grids have usual parts alone, since
/// the least inductance or capacitance throws the voltages far off in one step.
pub fn grid(job: u64, random: &mut Random) -> Plan {
    let n = stations(random);
    grid_of(n, job, random)
}

/// With that many stations.
pub fn grid_of(n: u64, job: u64, random: &mut Random) -> Plan {
    let parts = random.pick(&[Parts::Usual, Parts::Any]);
    let mut plan = Plan::small(job);
    plan.stations = (0..n).map(|i| station(i, n, parts, random)).collect();
    plan.cables = cables(n, parts, random);
    plan.breakers = (0..random.below(8) / 6).map(|_| breaker(random)).collect();
    plan.counts = [n, plan.cables.len() as u64, plan.breakers.len() as u64];
    for field in plan.fields().iter().filter(|field| field.rule == 8) {
        set_inside(&mut plan, field, random);
    }
    plan.times = times(random);
    if has_fault(job) {
        plan.event = fault(plan.counts[1], random);
    }
    plan
}

#[derive(Clone, Copy)]
enum Parts {
    Usual,
    Any,
}

impl Parts {
    /// A usual value; or one of others, an end of the range, or anything in it.
    fn some(self, range: Range, usual: &[f64], others: &[f64], random: &mut Random) -> u64 {
        match (self, random.below(8)) {
            (Parts::Any, 0) => random.pick(&[range.low, range.high]).to_bits(),
            (Parts::Any, 1) => inside(range, random),
            (Parts::Any, 2..=5) => random.pick(others).to_bits(),
            _ => random.pick(usual).to_bits(),
        }
    }
}

fn station(position: u64, n: u64, parts: Parts, random: &mut Random) -> [u64; 11] {
    let topology = random.below(4);
    let submodules = match topology {
        MMC => random.pick(&[0, 1, 2, 10, 200, LAST_NUMBER]),
        _ => random.bits(),
    };
    let any = random.below(n + 4);
    // Another's position, another's id, an end past the count.
    let id = random.pick(&[position, position, n - 1 - position, 0, any, n, LAST_NUMBER]);
    let mut station = [0; 11];
    station[..3].copy_from_slice(&[topology, submodules, id]);
    station[3] = parts.some(RATED_KV, &[320.0, 500.0], &[1.0, 100.0, 800.0], random);
    station[4] = parts.some(RATED_MW, &[500.0, 1000.0], &[0.0, 0.5, 1.0], random);
    for field in &mut station[5..10] {
        *field = random.pick(&[0.0f64, 0.1, 1.0, 10.0]).to_bits();
    }
    let (usual, others) = ([1_000.0, 10_000.0], [0.0, 0.01, 0.06, 1.0]);
    station[10] = parts.some(SUBMODULE_CAPACITANCE, &usual, &others, random);
    station
}

fn cables(n: u64, parts: Parts, random: &mut Random) -> Vec<[u64; 7]> {
    let mut ends = ends(n, random);
    if ends.is_empty() {
        ends.push([0, n - 1]);
    }
    ends.truncate(CABLES as usize);
    ends.into_iter()
        .map(|[a, b]| match random.below(2) {
            0 => cable(a, b, parts, random),
            _ => cable(b, a, parts, random),
        })
        .collect()
}

fn cable(from: u64, to: u64, parts: Parts, random: &mut Random) -> [u64; 7] {
    let mut cable = [random.below(LAST_NUMBER + 1), from, to, 0, 0, 0, 0];
    cable[3] = parts.some(PER_KM, &[0.01, 0.03], &[0.0, 1e-9, 1.0], random);
    cable[4] = parts.some(PER_KM, &[0.5, 0.7], &[0.0, 1e-6, 10.0], random);
    cable[5] = parts.some(PER_KM, &[0.2, 0.3], &[0.0, 1e-3, 10.0], random);
    cable[6] = parts.some(LENGTH, &[90.0, 200.0], &[0.0, 1.0, 10.0], random);
    cable
}

/// Type, cable, fraction, resistance, inception.
fn fault(cables: u64, random: &mut Random) -> Vec<u64> {
    let any = random.below(cables);
    let cable = match random.below(8) {
        0 => random.pick(&[cables, cables + 1, LAST_NUMBER]),
        _ => random.pick(&[any, 0, cables - 1]),
    };
    let tenth = random.below(11) as f64 / 10.0;
    let fraction = match random.below(4) {
        0 => random.fraction(),
        1 => random.pick(&[0.0, -0.0, 1.0, f64::from_bits(1)]),
        _ => tenth,
    };
    let ohms = resistance(random);
    vec![
        random.below(3),
        cable,
        held(FRACTION, fraction).to_bits(),
        ohms,
        Parts::Any.some(INCEPTION, &[0.0], &[1.0, 10.0], random),
    ]
}

pub fn resistance(random: &mut Random) -> u64 {
    let ohms = match random.below(4) {
        // The least that a drain counts with, and beside it.
        0 => {
            let least = random.pick(&[0.0, 1e-6, 1e-9]);
            neighbour(least, random).abs()
        }
        1 => RESISTANCE.high,
        _ => power_of_ten(-3.0, 4.0, random),
    };
    held(RESISTANCE, ohms).to_bits()
}

/// Whether the fault is handed to the step, and the step's length.
pub fn rest(random: &mut Random) -> Vec<u64> {
    let dt_s = match random.below(16) {
        0 => random
            .pick(&[0.0, -0.0, -1e-6, 1.0, 1e-300, f64::from_bits(1)])
            .to_bits(),
        1 => any_form(random),
        2 => power_of_ten(-15.0, 3.0, random).to_bits(),
        _ => power_of_ten(-7.0, -4.0, random).to_bits(),
    };
    vec![u64::from(random.below(4) > 0), dt_s]
}

/// Voltages around the rated ones and currents of some kiloamperes; in half of the states some at rest or far off too, and in one of
/// four any doubles.
pub fn state(plan: &Plan, random: &mut Random) -> Vec<u64> {
    let parts = random.pick(&[Parts::Usual, Parts::Any]);
    let mut state = Vec::new();
    for station in &plan.stations {
        let part = match (parts, random.below(8)) {
            (Parts::Any, 0) => 0.0,
            (Parts::Any, 1) => random.pick(&[0.001, 1.0, -0.5]),
            _ => 0.7 + 0.6 * random.fraction(),
        };
        state.push((double(station[3]) * part).to_bits());
    }
    for _ in &plan.cables {
        let ka = match (parts, random.below(8)) {
            (Parts::Any, 0) => 0.0,
            (Parts::Any, 1) => 1e3 * (random.fraction() - 0.5),
            _ => 20.0 * (random.fraction() - 0.5),
        };
        state.push(ka.to_bits());
    }
    if random.below(4) == 0 {
        let one_of = random.pick(&[1, 4, 32]);
        for entry in &mut state {
            if random.below(one_of) == 0 {
                *entry = any_form(random);
            }
        }
    }
    state
}

#[cfg(test)]
mod tests {
    use super::*;
    use crate::draw::each_accepted;
    use crate::tally::Steps;

    #[test]
    fn accepted_and_of_every_kind() {
        let mut met = Steps::default();
        each_accepted(5000, job, |job, answer| met.add(job, answer));
        for (name, count) in met.counted() {
            assert!(count > 0, "{name}");
        }
    }
}
