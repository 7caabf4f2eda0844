//! Detection, one step of a transient and the fault circuit.

use crate::dc_switching::{
    circuit_parameters, decayed_current_ka, fault_current_ka, is_detected, step_from,
};
use crate::grids;
use crate::numbers::{bits, double};
use crate::rules;

/// Whether the first of two states shows a fault.
pub fn detection(input: &mut impl Iterator<Item = u64>, output: &mut Vec<u64>) -> Option<()> {
    let grid = grids::grid(input)?;
    let later_ms = double(input.next()?);
    let later = grids::state(&grid, later_ms, input)?;
    let earlier_ms = double(input.next()?);
    let earlier = grids::state(&grid, earlier_ms, input)?;
    let refusal = rules::detection(&grid);
    output.push(refusal);
    if refusal == 0 {
        output.push(is_detected(&grid.simulator, &later, &earlier) as u64);
    }
    Some(())
}

/// Station voltages, station currents and cable currents after one step, with the fault or without.
pub fn step(input: &mut impl Iterator<Item = u64>, output: &mut Vec<u64>) -> Option<()> {
    let grid = grids::grid(input)?;
    let fault = grids::fault(input)?;
    let handed = input.next()?;
    let dt_s = double(input.next()?);
    let state = grids::state(&grid, 0.0, input)?;
    let refusal = rules::fault(&grid, &fault);
    output.push(refusal);
    if refusal == 0 {
        let fault = Some(&fault).filter(|_| handed == 1);
        let next = step_from(&grid.simulator, &state, dt_s, fault);
        let parts = [
            next.station_voltages_kv,
            next.station_currents_ka,
            next.cable_currents_ka,
        ];
        output.extend(parts.into_iter().flatten().map(bits));
    }
    Some(())
}

/// L, C, R, the fault's own resistance and V; the fault current at a time; what is left at that time of another current.
pub fn circuit(input: &mut impl Iterator<Item = u64>, output: &mut Vec<u64>) -> Option<()> {
    let grid = grids::grid(input)?;
    let fault = grids::fault(input)?;
    let t_ms = double(input.next()?);
    let current_ka = double(input.next()?);
    let clearing_time_ms = double(input.next()?);
    let refusal = rules::fault(&grid, &fault);
    output.push(refusal);
    if refusal == 0 {
        let simulator = &grid.simulator;
        output.extend(circuit_parameters(simulator, &fault).map(bits));
        output.extend(
            [
                fault_current_ka(simulator, &fault, t_ms),
                decayed_current_ka(simulator, &fault, current_ka, clearing_time_ms, t_ms),
            ]
            .map(bits),
        );
    }
    Some(())
}

#[cfg(test)]
mod tests {
    use super::super::{answer, CIRCUIT, DETECTION, STEP};
    use crate::dc_switching::damping_squares;
    use crate::grids::{self, STATIONS};
    use crate::numbers::{double, NAN};
    use crate::plan::{Plan, MMC, TWO_LEVEL};
    use crate::rules::{ARM_INDUCTANCE, FRACTION, LENGTH, PER_KM, SUBMODULE_CAPACITANCE};

    fn answered(plan: &Plan) -> Vec<u64> {
        let mut output = Vec::new();
        answer(&mut plan.numbers().into_iter(), &mut output).expect("a whole job");
        output
    }

    fn doubles(plan: &Plan) -> Vec<f64> {
        let answer = answered(plan);
        assert_eq!(answer[0], 0);
        answer[1..].iter().map(|&x| double(x)).collect()
    }

    fn assert_near(given: &[f64], expected: &[f64]) {
        assert_eq!(given.len(), expected.len());
        for (x, y) in given.iter().zip(expected) {
            assert!((x - y).abs() <= 1e-12 * y.abs(), "{given:?} {expected:?}");
        }
    }

    /// One station of 100 kV and one cable: later time, voltage and current, then the earlier ones.
    fn detected(states: [f64; 6]) -> bool {
        let mut plan = Plan::small(DETECTION);
        plan.states = states.map(f64::to_bits).to_vec();
        match answered(&plan)[..] {
            [0, one] => one == 1,
            ref other => panic!("{other:?}"),
        }
    }

    #[test]
    fn detections_by_hand() {
        // 10 kA in a millisecond, more than that, and as much in half the time.
        assert!(!detected([1.0, 100.0, 10.0, 0.0, 0.0, 0.0]));
        assert!(detected([1.0, 100.0, 10f64.next_up(), 0.0, 0.0, 0.0]));
        assert!(detected([0.5, 100.0, -10.0, 0.0, 0.0, 0.0]));
        // The order of the times does not count; times that are equal, or no numbers, are 1e-9 ms apart.
        assert!(detected([0.0, 100.0, 10.0, 0.5, 0.0, 0.0]));
        assert!(detected([1.0, 100.0, 1e-7, 1.0, 0.0, 0.0]));
        assert!(!detected([1.0, 100.0, 1e-9, 1.0, 0.0, 0.0]));
        assert!(detected([f64::NAN, 100.0, 1e-7, 1.0, 0.0, 0.0]));
        // 80 percent of the rated voltage, and less; the earlier voltage does not count.
        assert!(!detected([1.0, 80.0, 0.0, 0.0, 0.0, 0.0]));
        assert!(detected([1.0, 80f64.next_down(), 0.0, 0.0, 100.0, 0.0]));
        // No comparison with a NaN holds.
        assert!(!detected([1.0, f64::NAN, f64::NAN, 0.0, 0.0, 0.0]));
        assert!(!detected([
            1.0,
            100.0,
            f64::INFINITY,
            0.0,
            0.0,
            f64::INFINITY
        ]));
        assert!(detected([
            1.0,
            100.0,
            f64::INFINITY,
            0.0,
            0.0,
            f64::NEG_INFINITY
        ]));
    }

    /// Two stations of 0.6 µF each, which a cable of 1 H and 1 ohm joins.
    fn two_stations() -> Plan {
        let mut plan = Plan::small(STEP);
        let mut station = [0; 11];
        station[..3].copy_from_slice(&[MMC, 0, 9]);
        station[3] = 100f64.to_bits();
        station[10] = 3.6f64.to_bits();
        plan.stations = vec![station; 2];
        plan.cables = vec![[0, 0, 1, 0, 0, 0, 0]];
        plan.cables[0][3..].copy_from_slice(&[1f64, 1000.0, 0.0, 1.0].map(f64::to_bits));
        plan.counts = [2, 1, 0];
        plan.breakers.clear();
        plan.states = [90f64, 80.0, 3.0].map(f64::to_bits).to_vec();
        plan
    }

    /// Without a time step the state stays as it is, and the station currents are the cable's.
    #[test]
    fn no_step() {
        let mut plan = two_stations();
        plan.rest = vec![1, 0];
        assert_eq!(doubles(&plan), [90.0, 80.0, -3.0, 3.0, 3.0]);
        // A negative voltage is raised to 0, and so is one that is no number.
        plan.states = vec![(-5f64).to_bits(), NAN, 3f64.to_bits()];
        assert_eq!(doubles(&plan)[..2], [0.0, 0.0]);
    }

    /// A step so short that it is a first-order one but for 1e-12: 7 kV fall off along the cable, and 3 kA flow along it.
    #[test]
    fn a_short_step() {
        let dt = 1e-13;
        let mut plan = two_stations();
        plan.rest = vec![0, f64::to_bits(dt)];
        let charge = 3.0 * dt / 0.6e-6;
        let current = 3.0 + 7.0 * dt;
        let expected = [90.0 - charge, 80.0 + charge, -current, current, current];
        assert_near(&doubles(&plan), &expected);
        // Half the fault's current drains both stations: 90 kV and 80 kV over 2 ohms.
        plan.rest[0] = 1;
        plan.event[2..4].copy_from_slice(&[0.5f64, 2.0].map(f64::to_bits));
        let [first, second] = [90.0, 80.0].map(|kv| kv / 2.0 * 0.5 * dt / 0.6e-6);
        let mut drained = expected;
        drained[0] -= first;
        drained[1] -= second;
        assert_near(&doubles(&plan), &drained);
        // A cable that there is not drains none.
        plan.event[1] = 1;
        assert_near(&doubles(&plan), &expected);
    }

    /// A cable's capacitance counts where its end is the station's id, and its current where the end is the station's position.
    #[test]
    fn capacitance_by_id() {
        let dt = 1e-13;
        let mut plan = two_stations();
        plan.rest = vec![0, f64::to_bits(dt)];
        // 1.2 µF of the cable, half of it at each end, so that the first station has 1.2 µF.
        plan.cables[0][5] = 1.2f64.to_bits();
        plan.stations[0][2] = 1;
        let given = doubles(&plan);
        let [first, second] = [1.2e-6, 0.6e-6].map(|c| 3.0 * dt / c);
        assert_near(&given[..2], &[90.0 - first, 80.0 + second]);
    }

    /// A cable of 1 ohm and 1 mH, half of it to the fault, and 1 mH in the station and as much besides.
    #[test]
    fn parameters_by_hand() {
        let mut plan = Plan::small(CIRCUIT);
        plan.stations[0][0] = TWO_LEVEL;
        plan.stations[0][9..].copy_from_slice(&[1f64, 4.0].map(f64::to_bits));
        plan.cables[0][3..].copy_from_slice(&[1f64, 1.0, 2.0, 2.0].map(f64::to_bits));
        plan.event = vec![1, 0, 0.5f64.to_bits(), 3f64.to_bits(), 5f64.to_bits()];
        // A hundredth of 3 kA, 100 ms after the clearing: the time constant is 3 ms.
        plan.rest = [105f64, 3.0, 5.0].map(f64::to_bits).to_vec();
        let given = doubles(&plan);
        assert_near(&given[..5], &[3.0, 8.0, 1.0, 3.0, 100.0]);
        assert_eq!(given[6], 0.0);
        // At its inception no current flows, and what is cleared is whole.
        plan.rest = [5f64, 3.0, 5.0].map(f64::to_bits).to_vec();
        assert_eq!(doubles(&plan)[5..], [0.0, 3.0]);
        // Underdamped: V/(ωL) e^(-αt) sin ωt, a quarter of it by the resistances.
        let t = 1e-4;
        plan.rest = [5.1f64, 3.0, 5.0].map(f64::to_bits).to_vec();
        let (l, c) = (3e-3, 8e-6);
        let alpha: f64 = 1.0 / (2.0 * l);
        let omega = (1.0 / (l * c) - alpha * alpha).sqrt();
        let current = 100.0 / (omega * l) * f64::exp(-alpha * t) * (omega * t).sin() / 4.0;
        let given = doubles(&plan);
        assert!((given[5] - current).abs() < 1e-8 * current);
        let left = 3.0 * f64::exp(-t / l);
        assert!((given[6] - left).abs() < 1e-9);
    }

    /// With the most inductance and capacitance that no rule refuses, the double below 1/(LC) is so far below it that the root of
    /// their difference is more than 1e-12. So no underdamped current is without frequency.
    #[test]
    fn the_lowest_frequency() {
        let mut plan = Plan::small(CIRCUIT);
        plan.stations[0][9] = ARM_INDUCTANCE.high.to_bits();
        plan.stations[0][10] = SUBMODULE_CAPACITANCE.high.to_bits();
        plan.stations = vec![plan.stations[0]; STATIONS as usize];
        plan.counts[0] = STATIONS;
        plan.cables[0][4..6].copy_from_slice(&[PER_KM.high.to_bits(); 2]);
        plan.cables[0][6] = LENGTH.high.to_bits();
        plan.event[2] = FRACTION.high.to_bits();
        assert_eq!(answered(&plan)[0], 0);
        let mut numbers = plan.numbers().into_iter().skip(1);
        let grid = grids::grid(&mut numbers).unwrap();
        let fault = grids::fault(&mut numbers).unwrap();
        let [_, natural] = damping_squares(&grid.simulator, &fault);
        assert!(natural > 7.5e-6);
        assert!((natural - natural.next_down()).sqrt() > 1e-12);
    }
}
