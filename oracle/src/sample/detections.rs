//! Detections on grids that no rule refuses.

use crate::jobs::DETECTION;
use crate::numbers::NAN;
use crate::plan::Plan;

pub fn detections(plans: &mut Vec<Plan>) {
    slopes(plans);
    voltages(plans);
    times(plans);
    forms(plans);
    no_cable(plans);
    full(plans);
}

/// Two states of a grid: the later is a millisecond after the earlier, all voltages are the rated ones, and no current flows.
struct States {
    rated: Vec<f64>,
    /// Of the later state, then of the earlier.
    ms: [f64; 2],
    voltages: [Vec<f64>; 2],
    currents: [Vec<f64>; 2],
}

const LATER: usize = 0;
const EARLIER: usize = 1;

fn quiet(rated: &[f64], cables: usize) -> States {
    States {
        rated: rated.to_vec(),
        ms: [1.0, 0.0],
        voltages: [rated.to_vec(), rated.to_vec()],
        currents: [vec![0.0; cables], vec![0.0; cables]],
    }
}

/// Three stations of other voltages, and three cables.
fn three() -> States {
    quiet(&[100.0, 320.0, 20.7], 3)
}

impl States {
    fn plan(self) -> Plan {
        let mut plan = Plan::small(DETECTION);
        let (station, cable) = (plan.stations[0], plan.cables[0]);
        plan.stations = self
            .rated
            .iter()
            .map(|kv| {
                let mut station = station;
                station[3] = kv.to_bits();
                station
            })
            .collect();
        plan.cables = vec![cable; self.currents[LATER].len()];
        plan.breakers.clear();
        plan.counts = [plan.stations.len() as u64, plan.cables.len() as u64, 0];
        for which in [LATER, EARLIER] {
            let entries = self.voltages[which].iter().chain(&self.currents[which]);
            plan.states.push(self.ms[which].to_bits());
            plan.states.extend(entries.map(|x| x.to_bits()));
        }
        plan
    }
}

/// 10 kA/ms and the double above it, in each cable.
fn slopes(plans: &mut Vec<Plan>) {
    plans.push(three().plan());
    for cable in 0..3 {
        for current in [10.0, -10f64.next_up()] {
            let mut states = three();
            states.currents[LATER][cable] = current;
            plans.push(states.plan());
        }
    }
    // In 0.003 ms the double above 0.03 kA makes 10 kA/ms, and no more.
    let rounded = (10.0f64 * 0.003).next_up();
    for current in [rounded, rounded.next_up()] {
        let mut states = three();
        states.ms[LATER] = 0.003;
        states.currents[LATER][1] = current;
        plans.push(states.plan());
    }
    // From 5 kA to as much the other way, and in half the time.
    for ms in [1.0, 0.5] {
        let mut states = three();
        states.ms[LATER] = ms;
        states.currents[LATER][1] = -5.0;
        states.currents[EARLIER][1] = 5.0;
        plans.push(states.plan());
    }
}

/// 0.8 of the rated voltage and the double below it, at each station. Of 20.7 kV it is rounded, and as a part of 20.7 kV it would be
/// less than 0.8.
fn voltages(plans: &mut Vec<Plan>) {
    for station in 0..3 {
        let least = 0.8 * three().rated[station];
        for kv in [least, least.next_down()] {
            let mut states = three();
            states.voltages[LATER][station] = kv;
            plans.push(states.plan());
        }
    }
    // The earlier voltages do not count; a voltage does beside a current.
    let mut states = three();
    states.voltages[EARLIER] = vec![0.0; 3];
    plans.push(states.plan());
    let mut states = three();
    states.voltages[LATER][2] = 0.0;
    states.currents[LATER][0] = 100.0;
    plans.push(states.plan());
}

/// Times that are equal, nearly so, the other way round, infinite, no numbers.
fn times(plans: &mut Vec<Plan>) {
    let changes = [1e-8, 1e-8f64.next_up(), 1e-8f64.next_up().next_up()];
    for (ms, currents) in [
        ([7.0, 7.0], &changes[..]),
        ([0.0, 1.0], &[10.0, 10f64.next_up()][..]),
        ([1e-300, 0.0], &[1e-7]),
        ([f64::NAN, 1.0], &changes),
        ([1.0, f64::NAN], &[1e-9]),
        ([f64::INFINITY, f64::INFINITY], &[1e-7]),
        ([f64::INFINITY, 0.0], &[f64::MAX, f64::INFINITY]),
    ] {
        for &current in currents {
            let mut states = three();
            states.ms = ms;
            states.currents[LATER][2] = current;
            plans.push(states.plan());
        }
    }
}

/// Doubles of every form.
fn forms(plans: &mut Vec<Plan>) {
    let not_numbers = [NAN, u64::MAX, 0x7ff0_0000_0000_0001].map(f64::from_bits);
    let forms = [
        f64::INFINITY,
        f64::NEG_INFINITY,
        f64::MAX,
        -0.0,
        f64::from_bits(1),
    ];
    for form in not_numbers {
        // Before an entry that tells.
        let mut states = three();
        states.currents[LATER][0] = form;
        states.currents[LATER][2] = 11.0;
        plans.push(states.plan());
    }
    for form in not_numbers.into_iter().chain(forms) {
        let mut states = three();
        states.currents[LATER][0] = form;
        plans.push(states.plan());
        let mut states = three();
        states.voltages[LATER][0] = form;
        plans.push(states.plan());
    }
    for currents in [[f64::INFINITY; 2], [f64::MAX, -f64::MAX]] {
        let mut states = three();
        states.currents[LATER][1] = currents[0];
        states.currents[EARLIER][1] = currents[1];
        plans.push(states.plan());
    }
}

fn no_cable(plans: &mut Vec<Plan>) {
    for kv in [80.0, 79.0] {
        let mut states = quiet(&[100.0, 100.0], 0);
        states.voltages[LATER][1] = kv;
        plans.push(states.plan());
    }
}

/// As many stations and cables as there is room for: the last of either tells.
fn full(plans: &mut Vec<Plan>) {
    let mut states = quiet(&[100.0; 32], 64);
    states.currents[LATER][63] = 11.0;
    plans.push(states.plan());
    let mut states = quiet(&[100.0; 32], 64);
    states.voltages[LATER][31] = 79.0;
    plans.push(states.plan());
}
