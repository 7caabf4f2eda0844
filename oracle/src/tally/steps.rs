//! The steps on grids that no rule refused.

use super::write_counted;
use crate::dc_switching::{ConverterStation, ConverterTopology, DcCable};
use crate::grids;
use crate::numbers::double;
use std::collections::HashSet;
use std::fmt;

pub struct Steps {
    pub all: u64,
    counts: [u64; NAMES.len()],
}

impl Default for Steps {
    fn default() -> Self {
        Steps {
            all: 0,
            counts: [0; NAMES.len()],
        }
    }
}

const NAMES: [&str; 33] = [
    "a fault handed to the step",
    "no fault handed to it",
    "a fault on a cable past the count",
    "a fault on the last cable of several",
    "a fault at fraction 0",
    "a fault at fraction 1",
    "a fault at the least resistance",
    "a faulted cable from a station to itself",
    "a faulted cable with an end past the count",
    "voltages of half to twice the rated ones",
    "a voltage raised to 0",
    "a NaN in the answer",
    "an infinity in the answer",
    "finite doubles alone",
    "a NaN in the state",
    "a cable from a station to itself",
    "parallel cables",
    "an end past the count",
    "a station whose id is not its position",
    "two stations of one id",
    "an id that is an end past the count",
    "an LCC",
    "a two-level converter",
    "an MMC",
    "an MMC without submodules",
    "a hybrid",
    "a cable at the least resistance",
    "a cable at the least inductance",
    "a station at the least capacitance",
    "a cable without length",
    "no time step",
    "a time step that is a NaN",
    "32 stations, 64 cables",
];

impl Steps {
    /// Adds an accepted step with its answer.
    pub fn add(&mut self, job: &[u64], answer: &[u64]) {
        let mut numbers = job[1..].iter().copied();
        let grid = grids::grid(&mut numbers).expect("a whole job");
        let fault = grids::fault(&mut numbers).expect("a whole job");
        let handed = numbers.next() == Some(1);
        let dt_s = double(numbers.next().expect("a whole job"));
        let state: Vec<f64> = numbers.map(double).collect();
        let next: Vec<f64> = answer[1..].iter().map(|&x| double(x)).collect();
        let (stations, cables) = (&grid.simulator.stations, &grid.simulator.cables);
        let n = stations.len();
        let past = |c: &DcCable| c.from_station >= n || c.to_station >= n;
        let to_itself = |c: &DcCable| c.from_station == c.to_station && c.from_station < n;
        let on = |is: fn(&DcCable, usize) -> bool| {
            let cable = cables.get(fault.location_cable_id);
            handed && cable.is_some_and(|c| is(c, n))
        };
        let any = |is: fn(&ConverterStation) -> bool| stations.iter().any(is);
        let ids: HashSet<usize> = stations.iter().map(|s| s.id).collect();
        let met = [
            handed,
            !handed,
            handed && fault.location_cable_id >= cables.len(),
            handed && cables.len() > 1 && fault.location_cable_id == cables.len() - 1,
            handed && fault.location_fraction == 0.0,
            handed && fault.location_fraction == 1.0,
            handed && fault.fault_resistance <= 1e-6,
            on(|c, n| c.from_station == c.to_station && c.from_station < n),
            on(|c, n| c.from_station >= n || c.to_station >= n),
            (0..n).all(|i| (0.5..2.0).contains(&(next[i] / stations[i].v_dc_rated_kv))),
            (0..n).any(|i| next[i] == 0.0 && state[i] != 0.0),
            next.iter().any(|x| x.is_nan()),
            next.iter().any(|x| x.is_infinite()),
            next.iter().all(|x| x.is_finite()),
            state.iter().any(|x| x.is_nan()),
            cables.iter().any(to_itself),
            parallel(cables),
            cables.iter().any(past),
            (0..n).any(|i| stations[i].id != i),
            ids.len() < n,
            cables.iter().any(|c| {
                [c.from_station, c.to_station]
                    .iter()
                    .any(|e| *e >= n && ids.contains(e))
            }),
            any(|s| s.topology == ConverterTopology::Lcc),
            any(|s| s.topology == ConverterTopology::TwoLevelVsc),
            any(|s| matches!(s.topology, ConverterTopology::Mmc { .. })),
            any(|s| s.topology == ConverterTopology::Mmc { n_submodules: 0 }),
            any(|s| s.topology == ConverterTopology::Hybrid),
            cables.iter().any(|c| c.r_per_km * c.length_km <= 1e-9),
            cables
                .iter()
                .any(|c| c.l_per_km * c.length_km * 1e-3 <= 1e-9),
            stations.iter().any(|s| has_least_capacitance(s, cables)),
            cables.iter().any(|c| c.length_km == 0.0),
            dt_s == 0.0,
            dt_s.is_nan(),
            n == 32 && cables.len() == 64,
        ];
        self.all += 1;
        for (count, met) in self.counts.iter_mut().zip(met) {
            *count += u64::from(met);
        }
    }

    /// What was counted, each with its name.
    pub fn counted(&self) -> impl Iterator<Item = (&'static str, u64)> + '_ {
        NAMES.into_iter().zip(self.counts)
    }
}

fn parallel(cables: &[DcCable]) -> bool {
    let mut seen = HashSet::new();
    cables.iter().any(|c| {
        let ends = [c.from_station, c.to_station];
        let [low, high] = [ends[0].min(ends[1]), ends[0].max(ends[1])];
        low != high && !seen.insert([low, high])
    })
}

/// An MMC with so little capacitance of its own and of its cables that it counts as the least, 0.01 µF.
fn has_least_capacitance(s: &ConverterStation, cables: &[DcCable]) -> bool {
    let ConverterTopology::Mmc { n_submodules } = s.topology else {
        return false;
    };
    let own = s.sm_capacitance_uf * n_submodules.max(1) as f64 / 6.0;
    let of_cables: f64 = cables
        .iter()
        .filter(|c| c.from_station == s.id || c.to_station == s.id)
        .map(|c| c.c_per_km * c.length_km * 0.5)
        .sum();
    own + of_cables <= 0.01
}

impl fmt::Display for Steps {
    fn fmt(&self, f: &mut fmt::Formatter) -> fmt::Result {
        write_counted(f, self.all, "accepted steps", self.counted())
    }
}
