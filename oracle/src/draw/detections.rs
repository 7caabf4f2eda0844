//! Detections that no rule refuses: states beside the thresholds, and states of any doubles.

use super::grids::{breaker, seen_in, set_inside, station, times};
use super::{any_form, neighbour, power_of_ten, Drawn, Random};
use crate::grids::{CABLES, STATIONS};
use crate::jobs::DETECTION;
use crate::numbers::double;
use crate::plan::Plan;

pub fn job(random: &mut Random) -> Drawn {
    let mut plan = Plan::small(DETECTION);
    plan.counts = [
        match random.below(16) {
            0 => STATIONS,
            1 => 1 + random.below(STATIONS),
            _ => 1 + random.below(4),
        },
        match random.below(16) {
            0 => CABLES,
            1 => random.below(CABLES),
            2..=4 => 0,
            _ => 1 + random.below(4),
        },
        random.below(8) / 6,
    ];
    let [stations, cables, breakers] = plan.counts;
    plan.stations = (0..stations).map(|_| station(random)).collect();
    plan.cables = vec![[0; 7]; cables as usize];
    plan.breakers = (0..breakers).map(|_| breaker(random)).collect();
    for field in plan.fields() {
        set_inside(&mut plan, &field, random);
    }
    for station in &mut plan.stations {
        if random.below(2) == 0 {
            station[3] = random
                .pick(&[1.0f64, 100.0, 320.0, 500.0, 2000.0])
                .to_bits();
        }
    }
    // No rule of a detection looks at them.
    plan.times = match random.below(8) {
        0 => [random.bits(), random.bits()],
        _ => times(random),
    };
    plan.states = states(&plan, random);
    Drawn {
        put: seen_in(&plan),
        numbers: plan.numbers(),
    }
}

/// The later state, then the earlier: one that shows nothing, at times one that shows a fault in one entry, and at times with any
/// doubles in it.
pub fn states(plan: &Plan, random: &mut Random) -> Vec<u64> {
    let (later_ms, earlier_ms) = two_times(random);
    let rated: Vec<f64> = plan.stations.iter().map(|s| double(s[3])).collect();
    let mut later = State {
        ms: later_ms.to_bits(),
        voltages: rated
            .iter()
            .map(|kv| (kv * (0.85 + 0.5 * random.fraction())).to_bits())
            .collect(),
        currents: Vec::new(),
    };
    // A part of what the threshold allows, so that no slope reaches it.
    let apart = (later_ms - earlier_ms).abs().max(1e-9);
    let earlier_currents: Vec<f64> = plan.cables.iter().map(|_| current(random)).collect();
    later.currents = earlier_currents
        .iter()
        .map(|i| (i + 9.0 * apart.min(1e6) * (random.fraction() - 0.5)).to_bits())
        .collect();
    let mut earlier = State {
        ms: earlier_ms.to_bits(),
        voltages: rated.iter().map(|kv| kv.to_bits()).collect(),
        currents: earlier_currents.into_iter().map(f64::to_bits).collect(),
    };
    if random.below(3) == 0 {
        set_a_current(&mut later, &mut earlier, apart, random);
    }
    if random.below(3) == 0 {
        set_a_voltage(&mut later, &rated, random);
    }
    if random.below(3) == 0 {
        set_any_forms(&mut later, &mut earlier, random);
    }
    later.numbers().chain(earlier.numbers()).collect()
}

struct State {
    ms: u64,
    voltages: Vec<u64>,
    currents: Vec<u64>,
}

impl State {
    fn numbers(self) -> impl Iterator<Item = u64> {
        [self.ms]
            .into_iter()
            .chain(self.voltages)
            .chain(self.currents)
    }
}

/// Mostly in order and apart; equal, or nearly so, and the other way round; at times no numbers.
fn two_times(random: &mut Random) -> (f64, f64) {
    let earlier = random.pick(&[0.0, 0.0, 1.0, 12.5, 100.0, 99_999.0]);
    let step = match random.below(4) {
        0 => random.pick(&[1.0, 0.5, 0.25, 0.0009765625, 2.0]),
        _ => power_of_ten(-4.0, 1.0, random),
    };
    match random.below(12) {
        0 => (earlier, earlier),
        1 => {
            // Beside the least time between two states.
            let ms = random.pick(&[1e-9, 1e-9f64.next_up(), 1e-9f64.next_down(), 1e-10, 1e-300]);
            (ms, 0.0)
        }
        2 | 3 => (earlier, earlier + step),
        4 => {
            let [a, b] = [0, 1].map(|_| double(any_form(random)));
            random.pick(&[(a, b), (a, earlier), (earlier, b), (f64::NAN, b)])
        }
        _ => (earlier + step, earlier),
    }
}

fn current(random: &mut Random) -> f64 {
    match random.below(4) {
        0 => 0.0,
        _ => 20.0 * random.fraction() - 10.0,
    }
}

/// The first, the last, or any.
fn some_place(len: usize, random: &mut Random) -> Option<usize> {
    if len == 0 {
        return None;
    }
    let any = random.below(len as u64) as usize;
    Some(random.pick(&[0, len - 1, any]))
}

/// Gives one cable the current that is 10 kA/ms from the earlier one, or nearly.
fn set_a_current(later: &mut State, earlier: &mut State, apart: f64, random: &mut Random) {
    let Some(at) = some_place(later.currents.len(), random) else {
        return;
    };
    let sign = random.pick(&[1.0, -1.0]);
    let change = sign * 10.0 * apart;
    // From nothing, so that the difference is not rounded.
    let (before, after) = match random.below(4) {
        0 => (change, 0.0),
        1 => {
            let before = current(random);
            (before, before + 2.0 * change)
        }
        2 => (0.0, change),
        _ => (0.0, neighbour(change, random)),
    };
    earlier.currents[at] = before.to_bits();
    later.currents[at] = after.to_bits();
}

/// Gives one station 0.8 of its voltage, or nearly, or far less.
fn set_a_voltage(later: &mut State, rated: &[f64], random: &mut Random) {
    let Some(at) = some_place(rated.len(), random) else {
        return;
    };
    let least = 0.8 * rated[at];
    later.voltages[at] = match random.below(8) {
        0 | 1 => least,
        2 => least.next_down(),
        3 => least.next_up(),
        4 => neighbour(least, random),
        5 => least * random.fraction(),
        6 => -rated[at],
        _ => random.pick(&[0.0, -0.0, f64::NEG_INFINITY, f64::from_bits(1)]),
    }
    .to_bits();
}

/// Any doubles in one place, in some, or in all.
fn set_any_forms(later: &mut State, earlier: &mut State, random: &mut Random) {
    let mut places: Vec<&mut u64> = later.voltages.iter_mut().collect();
    places.extend(&mut later.currents);
    places.extend(&mut earlier.voltages);
    places.extend(&mut earlier.currents);
    let of_eight = random.pick(&[0, 1, 4, 8]);
    let Some(first) = some_place(places.len(), random) else {
        return;
    };
    for (at, place) in places.into_iter().enumerate() {
        if at == first || random.below(8) < of_eight {
            *place = any_form(random);
        }
    }
}

#[cfg(test)]
mod tests {
    use super::*;
    use crate::draw::each_accepted;
    use crate::tally::Detections;

    #[test]
    fn accepted_and_of_every_kind() {
        let mut met = Detections::default();
        each_accepted(20_000, job, |job, answer| met.add(job, answer));
        for (name, count) in met.counted() {
            assert!(count > 0, "{name}");
        }
    }
}
