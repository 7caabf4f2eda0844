//! Fault circuits that no rule refuses: of every damping, the one between two of them too, at times that their time constants
//! give.

use super::grids::seen_in;
use super::{any_form, neighbour, power_of_ten, steps, Drawn, Random};
use crate::dc_switching::{
    circuit_parameters, damping, damping_squares, decayed_current_ka, Damping, DcFaultEvent,
};
use crate::grids::{self, Grid};
use crate::jobs::CIRCUIT;
use crate::numbers::double;
use crate::plan::Plan;
use crate::rules::PER_KM;

pub fn job(random: &mut Random) -> Drawn {
    let mut plan = steps::grid(CIRCUIT, random);
    match random.below(4) {
        0 => {}
        1 => set_resistance(&mut plan, random),
        2 => set_little_of_all(&mut plan, random),
        _ => set_critical(&mut plan, random),
    }
    plan.rest = rest_of(&plan, random);
    Drawn {
        put: seen_in(&plan),
        numbers: plan.numbers(),
    }
}

/// The place of the cable that has the fault: past the count, it is the last.
fn faulted(plan: &Plan) -> usize {
    plan.cables.len().min(plan.event[1] as usize + 1) - 1
}

/// A cable with so much resistance that its current does not swing.
fn set_resistance(plan: &mut Plan, random: &mut Random) {
    let at = faulted(plan);
    let ohms = power_of_ten(0.0, 3.0, random).min(PER_KM.high);
    plan.cables[at][3] = ohms.to_bits();
    plan.cables[at][6] = power_of_ten(0.0, 4.0, random).to_bits();
    plan.event[2] = random.pick(&[1f64, 0.5]).to_bits();
}

/// The least of inductance, capacitance and resistance, in some of them.
fn set_little_of_all(plan: &mut Plan, random: &mut Random) {
    let at = faulted(plan);
    for column in 3..6 {
        if random.below(2) == 0 {
            plan.cables[at][column] = random.pick(&[0.0f64, 1e-12, 0.01, 1e-3]).to_bits();
        }
    }
    let little = random.below(2) == 0;
    for station in &mut plan.stations {
        if little {
            station[9..].copy_from_slice(&[0, 0]);
        }
    }
}

/// The resistance with which the current just does not swing, or the nearest to it that there is.
fn set_critical(plan: &mut Plan, random: &mut Random) {
    let at = faulted(plan);
    // Powers of two, so that the resistance of the whole cable is not rounded.
    let km: f64 = random.pick(&[1.0, 1.0, 16.0, 1024.0, 8192.0]);
    plan.cables[at][6] = km.to_bits();
    plan.event[2] = 1f64.to_bits();
    if random.below(2) == 0 {
        plan.cables[at][4] = random.pick(&[0.0f64, 0.5, 1.0]).to_bits();
    }
    let (grid, fault) = read(plan);
    let [_, square] = damping_squares(&grid.simulator, &fault);
    let [l_mh, ..] = circuit_parameters(&grid.simulator, &fault);
    let ohms = square.sqrt() * 2.0 * (l_mh * 1e-3) / km;
    if ohms > PER_KM.high {
        return;
    }
    let mut below = ohms;
    for _ in 0..4 {
        below = below.next_down();
    }
    let mut tried = below;
    for _ in 0..9 {
        plan.cables[at][3] = tried.clamp(PER_KM.low, PER_KM.high).to_bits();
        let (grid, fault) = read(plan);
        if damping(&grid.simulator, &fault) == Damping::Critical {
            return;
        }
        tried = tried.next_up();
    }
    plan.cables[at][3] = random.pick(&[below, ohms]).to_bits();
}

fn read(plan: &Plan) -> (Grid, DcFaultEvent) {
    let mut numbers = plan.numbers().into_iter().skip(1);
    let grid = grids::grid(&mut numbers).expect("a whole grid");
    let fault = grids::fault(&mut numbers).expect("a whole fault");
    (grid, fault)
}

/// Time, current and clearing time. The time from inception or clearing is that in which a current swings, or decays.
fn rest_of(plan: &Plan, random: &mut Random) -> Vec<u64> {
    let (grid, fault) = read(plan);
    let [l_mh, c_uf, ohms, ..] = circuit_parameters(&grid.simulator, &fault);
    let swing_ms = 1e3 * (l_mh * 1e-3 * c_uf * 1e-6).sqrt();
    let decay_ms = l_mh / ohms;
    let constant_ms = random.pick(&[swing_ms, decay_ms]);
    let some = constant_ms * power_of_ten(-3.0, 3.0, random);
    let after_ms = random.pick(&[0.0, constant_ms, some, some, 1000.0 * decay_ms]);
    let from = fault.inception_time_ms;
    let t_ms = match random.below(8) {
        0 => from - after_ms,
        1 => from,
        2 => double(any_form(random)),
        _ => from + after_ms,
    };
    let clearing_ms = match random.below(8) {
        0 => t_ms + decay_ms,
        1 => t_ms,
        2 => double(any_form(random)),
        _ => t_ms - decay_ms * power_of_ten(-3.0, 1.5, random),
    };
    let current_ka = match random.below(8) {
        0 => double(any_form(random)),
        // What is left is the least that counts, or nearly.
        1 | 2 => {
            let left = decayed_current_ka(&grid.simulator, &fault, 1.0, clearing_ms, t_ms);
            neighbour(1e-6 / left, random)
        }
        3 => {
            let special = random.pick(&[0.0, -0.0, 1e-6, -1.0]);
            neighbour(special, random)
        }
        _ => 50.0 * random.fraction(),
    };
    [t_ms, current_ka, clearing_ms].map(f64::to_bits).to_vec()
}

/// Where the grid may be one that is refused.
pub fn rest(plan: &Plan, random: &mut Random) -> Vec<u64> {
    let from = double(plan.event[4]);
    let t_ms = match random.below(4) {
        0 => any_form(random),
        _ => (from + power_of_ten(-3.0, 2.0, random)).to_bits(),
    };
    let current_ka = match random.below(4) {
        0 => any_form(random),
        _ => (50.0 * random.fraction()).to_bits(),
    };
    let clearing_ms = match random.below(4) {
        0 => any_form(random),
        _ => (from + random.fraction()).to_bits(),
    };
    vec![t_ms, current_ka, clearing_ms]
}

#[cfg(test)]
mod tests {
    use super::*;
    use crate::draw::each_accepted;
    use crate::tally::Circuits;

    #[test]
    fn accepted_and_of_every_kind() {
        let mut met = Circuits::default();
        each_accepted(5000, job, |job, answer| met.add(job, answer));
        for (name, count) in met.counted() {
            assert!(count > 0 || name == Circuits::NEVER, "{name}");
        }
    }
}
