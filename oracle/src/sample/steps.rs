//! Steps on grids that no rule refuses.

use super::flows::{station, Station};
use crate::jobs::STEP;
use crate::numbers::NAN;
use crate::plan::{Plan, HYBRID_CONVERTER, LCC, MMC, TWO_LEVEL};
use crate::rules::{LAST_NUMBER, RESISTANCE};

type Cable = [u64; 7];

pub fn steps(plans: &mut Vec<Plan>) {
    lengths(plans);
    faults(plans);
    ids(plans);
    states(plans);
    full(plans);
}

/// R, L and C of all its kilometres.
pub fn cable(from: u64, to: u64, ohms: f64, mh: f64, uf: f64, km: f64) -> Cable {
    let [ohms, mh, uf] = [ohms, mh, uf].map(|x| (x / km.max(1.0)).to_bits());
    [0, from, to, ohms, mh, uf, km.to_bits()]
}

fn step(stations: &[Station], cables: &[Cable]) -> Plan {
    let mut plan = Plan::small(STEP);
    plan.counts = [stations.len() as u64, cables.len() as u64, 0];
    plan.stations = stations.to_vec();
    plan.cables = cables.to_vec();
    plan.breakers.clear();
    for (station, id) in plan.stations.iter_mut().zip(0..) {
        station[2] = id;
    }
    plan.event = fault(0, 0.5, 10.0);
    plan.rest = vec![1, 1e-5f64.to_bits()];
    let kv = (0..stations.len()).map(|i| 500.0 - 7.0 * i as f64);
    let ka = (0..cables.len()).map(|k| 1.5 - 0.3 * k as f64);
    plan.states = kv.chain(ka).map(f64::to_bits).collect();
    plan
}

fn fault(cable: u64, fraction: f64, ohms: f64) -> Vec<u64> {
    vec![1, cable, fraction.to_bits(), ohms.to_bits(), 0]
}

/// Four stations of the four topologies. Beside the cables that join them there is one from a station to itself, one of no length
/// between the first two, and two with an end past the count.
pub fn four() -> Plan {
    let mmc = |submodules| station(MMC, submodules, 500.0, 1000.0);
    step(
        &[
            station(LCC, 0, 500.0, 1000.0),
            station(TWO_LEVEL, 0, 500.0, 700.0),
            mmc(0),
            station(HYBRID_CONVERTER, 0, 480.0, 900.0),
        ],
        &[
            cable(0, 1, 2.0, 100.0, 40.0, 200.0),
            cable(2, 1, 1.0, 50.0, 20.0, 100.0),
            cable(2, 3, 0.5, 25.0, 10.0, 50.0),
            cable(3, 3, 1.0, 30.0, 5.0, 10.0),
            cable(0, 1, 1.0, 1.0, 1.0, 0.0),
            cable(0, 4, 3.0, 90.0, 30.0, 150.0),
            cable(LAST_NUMBER, 2, 3.0, 90.0, 30.0, 150.0),
        ],
    )
}

/// Time steps of every length, with the fault and without.
fn lengths(plans: &mut Vec<Plan>) {
    let doubles = [0.0, 1e-300, 1e-7, 1e-5, 1e-3, 1.0, -1e-5, f64::INFINITY];
    for dt_s in doubles.map(f64::to_bits).into_iter().chain([NAN]) {
        let mut plan = four();
        plan.rest = vec![1, dt_s];
        plans.push(plan);
    }
    let mut plan = four();
    plan.rest[0] = 0;
    plans.push(plan);
}

/// A fault on each cable and past them, at both ends and at the least and the most resistance.
fn faults(plans: &mut Vec<Plan>) {
    for cable in (1..9).chain([LAST_NUMBER]) {
        let mut plan = four();
        plan.event = fault(cable, 0.5, 10.0);
        plans.push(plan);
    }
    for (fraction, ohms) in [
        (0.0, 10.0),
        (1.0, 10.0),
        (0.5, 0.0),
        (0.5, 1e-6),
        (0.5, 1e-6f64.next_up()),
        (0.5, RESISTANCE.high),
    ] {
        let mut plan = four();
        plan.event = fault(0, fraction, ohms);
        plans.push(plan);
    }
    // Each product and quotient is rounded, the step is so long that it shows, and no cable of no length hides it.
    let two = [
        station(LCC, 0, 500.0, 1000.0),
        station(TWO_LEVEL, 0, 500.0, 700.0),
    ];
    for (fraction, ohms) in [(0.1, 3.0), (0.3, 7.0), (0.7, 0.3)] {
        let mut plan = step(&two, &[cable(0, 1, 2.0, 100.0, 40.0, 200.0)]);
        plan.event = fault(0, fraction, ohms);
        plan.rest[1] = 1e-2f64.to_bits();
        plans.push(plan);
    }
}

/// Ids that are not the positions: a cable's capacitance is at the station with its end's id, and its current at the end's position.
fn ids(plans: &mut Vec<Plan>) {
    for ids in [[3, 2, 1, 0], [1, 1, 1, 1], [4, 0, LAST_NUMBER, 4]] {
        let mut plan = four();
        for (station, id) in plan.stations.iter_mut().zip(ids) {
            station[2] = id;
        }
        plans.push(plan);
    }
    // The least capacitance, inductance and resistance, and one station with a cable to itself.
    let mut little = station(MMC, 1, 500.0, 0.0);
    little[10] = 0.05f64.to_bits();
    plans.push(step(&[little; 2], &[cable(0, 1, 1e-9, 1e-6, 0.0, 1.0)]));
    plans.push(step(&[little], &[cable(0, 0, 1.0, 10.0, 0.0, 1.0)]));
}

/// Any doubles in the state.
fn states(plans: &mut Vec<Plan>) {
    let forms = [
        f64::NAN,
        f64::INFINITY,
        -0.0,
        -5.0,
        f64::MAX,
        f64::from_bits(1),
    ];
    for form in forms {
        for at in [0, 4] {
            let mut plan = four();
            plan.states[at] = form.to_bits();
            plans.push(plan);
        }
    }
    let mut plan = four();
    plan.states = vec![(-0.0f64).to_bits(); 11];
    plans.push(plan);
}

/// As many stations and cables as there is room for: a ring and chords, with a fault on the last cable.
fn full(plans: &mut Vec<Plan>) {
    let stations: Vec<Station> = (0..32).map(|i| station(i % 4, i, 500.0, 1000.0)).collect();
    let cables: Vec<Cable> = (0..64)
        .map(|k| cable(k % 32, (k + 1 + k / 32 * 4) % 32, 2.0, 100.0, 40.0, 200.0))
        .collect();
    let mut plan = step(&stations, &cables);
    plan.event = fault(63, 0.3, 10.0);
    plans.push(plan);
}
