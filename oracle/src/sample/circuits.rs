//! Fault circuits of grids that no rule refuses.

use super::flows::station;
use crate::jobs::CIRCUIT;
use crate::numbers::NAN;
use crate::plan::{Plan, MMC};
use crate::rules::{ARM_INDUCTANCE, LAST_NUMBER, LENGTH, PER_KM, RESISTANCE};

pub fn circuits(plans: &mut Vec<Plan>) {
    times(plans);
    dampings(plans);
    near_roots(plans);
    faults(plans);
    decays(plans);
    full(plans);
}

/// A cable of one kilometre with a fault at its far end: resistance, capacitance, and the station's inductance, to which 1 mH is
/// added. The fault begins at 5 ms; 3 kA are cleared at 7 ms, and the time is 8 ms.
fn circuit(ohms: f64, uf: f64, arm_mh: f64) -> Plan {
    let mut plan = Plan::small(CIRCUIT);
    plan.stations[0] = station(MMC, 1, 100.0, 1000.0);
    plan.stations[0][9..].copy_from_slice(&[arm_mh, 0.0].map(f64::to_bits));
    plan.cables[0][3..].copy_from_slice(&[ohms, 0.0, uf, 1.0].map(f64::to_bits));
    plan.event = [1f64, 3.0, 5.0].map(f64::to_bits).to_vec();
    plan.event.splice(0..0, [1, 0]);
    plan.rest = [8f64, 3.0, 7.0].map(f64::to_bits).to_vec();
    plan
}

/// At the inception, beside it, before it, later, and so late that nothing flows; times that are no numbers.
fn times(plans: &mut Vec<Plan>) {
    let finite = [
        0.0,
        -1.0,
        5.0,
        5f64.next_up(),
        5.1,
        6.0,
        9.9,
        50.0,
        1e4,
        1e300,
    ];
    let forms = [f64::INFINITY, f64::NEG_INFINITY];
    for t in finite
        .into_iter()
        .chain(forms)
        .map(f64::to_bits)
        .chain([NAN])
    {
        let mut plan = circuit(1.0, 8.0, 2.0);
        plan.rest[0] = t;
        plans.push(plan);
    }
}

/// Overdamped, underdamped, and between them. With 1 mH and 1,000 µF a current of 2 ohms just does not swing: the squares of damping
/// and of frequency are then the same double. With 10 µF that of 20 ohms is a double too low, and that of the next number of ohms a
/// double too high.
fn dampings(plans: &mut Vec<Plan>) {
    for (ohms, uf, arm_mh) in [
        (2.0, 1000.0, 0.0),
        (100.0, 2.0, 4.0),
        (20.0, 10.0, 0.0),
        (20f64.next_up(), 10.0, 0.0),
        (10.0, 1000.0, 0.0),
        (1000.0, 1000.0, 0.0),
        (1000.0, 0.0, 0.0),
        (0.0, 1000.0, 0.0),
        (0.01, 0.01, 0.0),
        (1.0, 0.0, ARM_INDUCTANCE.high),
    ] {
        for t in [5.5f64, 8.0] {
            let mut plan = circuit(ohms, uf, arm_mh);
            plan.rest[0] = t.to_bits();
            plans.push(plan);
        }
    }
    // The most of everything: the lowest frequency that there is.
    let mut plan = circuit(0.0, PER_KM.high, ARM_INDUCTANCE.high);
    plan.cables[0][4] = PER_KM.high.to_bits();
    plan.cables[0][6] = LENGTH.high.to_bits();
    plan.rest[0] = 1e5f64.to_bits();
    plans.push(plan);
}

/// Two roots so near each other that they are nearly one: of 1 H and 1 F with the double after 2 ohms, 500 ms after the inception; and of
/// the most that a station and its cable can have, with the least ohms whose current does not swing. They are 4.2e-8 and 8.2e-11 apart.
fn near_roots(plans: &mut Vec<Plan>) {
    for (ohms, mh, km, arm_mh, t) in [
        (0.002f64.next_up(), 0.0, 1000.0, 999.0, 505.0),
        (
            0.006324871856409424,
            PER_KM.high,
            LENGTH.high,
            ARM_INDUCTANCE.high,
            1e5,
        ),
    ] {
        let mut plan = circuit(ohms, PER_KM.high, arm_mh);
        plan.stations[0][3] = 320f64.to_bits();
        plan.cables[0][4] = f64::to_bits(mh);
        plan.cables[0][6] = f64::to_bits(km);
        plan.event[3] = 0;
        plan.rest[0] = f64::to_bits(t);
        plans.push(plan);
    }
}

/// Every type, fractions and resistances at the ends of their ranges, cables and ends past the count.
fn faults(plans: &mut Vec<Plan>) {
    let whole = || {
        let mut plan = circuit(1.0, 8.0, 2.0);
        plan.cables[0][4] = 0.5f64.to_bits();
        plan
    };
    for kind in 0..3 {
        for fraction in [0.0, 0.3, 1.0] {
            let mut plan = whole();
            plan.event[0] = kind;
            plan.event[2] = f64::to_bits(fraction);
            plans.push(plan);
        }
    }
    // A sum of inductances in which every step is rounded.
    for (mh, arm_mh) in [(0.1, 0.7), (1.3, 1.1)] {
        let mut plan = circuit(1.0, 8.0, arm_mh);
        plan.cables[0][4] = f64::to_bits(mh);
        plans.push(plan);
    }
    for ohms in [0.0, 1e-9, RESISTANCE.high] {
        let mut plan = whole();
        plan.event[3] = f64::to_bits(ohms);
        plans.push(plan);
    }
    // Two stations and two cables: the fault is on the second, also where its number is past the count, and the end that is past the
    // count is the second station.
    for (number, from) in [(0, 0), (1, 1), (2, 2), (LAST_NUMBER, LAST_NUMBER), (1, 0)] {
        let mut plan = whole();
        plan.stations.push(station(MMC, 2, 320.0, 500.0));
        plan.stations[1][9..].copy_from_slice(&[7f64, 11.0].map(f64::to_bits));
        plan.cables.push(plan.cables[0]);
        plan.cables[1][1..4].copy_from_slice(&[from, 0, 3f64.to_bits()]);
        plan.counts[..2].copy_from_slice(&[2, 2]);
        plan.event[1] = number;
        plans.push(plan);
    }
}

/// Currents that stay, that decay, beside the least that counts, and any doubles.
fn decays(plans: &mut Vec<Plan>) {
    let least = 1e-6f64;
    for (current, clearing) in [
        (3.0, 8.0),
        (3.0, 9.0),
        (3.0, 0.0),
        (3.0, -1e6),
        (least, 8.0),
        (least.next_up(), 8.0),
        (least.next_down(), 8.0),
        (-3.0, 7.0),
        (0.0, 7.0),
        (f64::NAN, 7.0),
        (f64::INFINITY, 7.0),
        (f64::INFINITY, f64::NEG_INFINITY),
        (3.0, f64::NAN),
        (3.0, f64::NEG_INFINITY),
        (f64::MAX, 7.9),
    ] {
        let mut plan = circuit(1.0, 8.0, 2.0);
        plan.rest[1..].copy_from_slice(&[current, clearing].map(f64::to_bits));
        plans.push(plan);
    }
}

/// As many stations and cables as there is room for. The capacitances are added in the order of the stations.
fn full(plans: &mut Vec<Plan>) {
    let mut plan = circuit(1.0, 8.0, 2.0);
    let (station, cable) = (plan.stations[0], plan.cables[0]);
    plan.stations = (0..32)
        .map(|i| {
            let mut station = station;
            station[10] = (0.1 + f64::from(i) / 3.0).to_bits();
            station
        })
        .collect();
    plan.cables = vec![cable; 64];
    plan.counts[..2].copy_from_slice(&[32, 64]);
    plan.event[1] = 63;
    plan.cables[63][1] = 31;
    plans.push(plan);
}

#[cfg(test)]
mod tests {
    use super::super::answered;
    use super::*;
    use crate::dc_switching::{damping, damping_squares, Damping};
    use crate::grids;

    /// The Rust takes them for two, though they are less than 1e-7 and 1e-10 apart.
    #[test]
    fn nearly_one_root() {
        let mut plans = Vec::new();
        near_roots(&mut plans);
        for (plan, most) in plans.iter().zip([1e-7, 1e-10]) {
            let mut numbers = plan.numbers().into_iter().skip(1);
            let grid = grids::grid(&mut numbers).unwrap();
            let fault = grids::fault(&mut numbers).unwrap();
            assert_eq!(damping(&grid.simulator, &fault), Damping::Over);
            let [alpha, omega] = damping_squares(&grid.simulator, &fault);
            assert!(2.0 * (alpha - omega).sqrt() < most);
        }
        // L in mH, C in µF, R and the fault's own in ohms, V in kV; the current, for which one root would give 97.044906 kA.
        let expected = [1000.0, 1e6, 2f64.next_up(), 0.0, 320.0, 97.04472604855385];
        assert_eq!(
            answered(&plans[0].numbers())[1..7],
            expected.map(f64::to_bits)
        );
    }
}
