//! The fault circuits of grids that no rule refused.

use super::write_counted;
use crate::dc_switching::{damping, damping_squares, Damping, DcFaultType};
use crate::grids;
use crate::numbers::double;
use std::fmt;

#[derive(Default)]
pub struct Circuits {
    pub all: u64,
    counts: [u64; NAMES.len()],
}

const NAMES: [&str; 26] = [
    "an underdamped current",
    Circuits::NEVER,
    "an overdamped current",
    "a critically damped current",
    "an underdamped current, by one double",
    "an overdamped current, by one double",
    "a time before the inception",
    "the time of the inception",
    "no fault current",
    "a fault current",
    "a fault current that is a NaN",
    "nothing left of the current",
    "as much left as the least, or a double more",
    "some of the current left",
    "a NaN left",
    "an infinity left",
    "a pole to ground",
    "a pole to a pole",
    "a converter inside",
    "a cable past the count",
    "a first end past the count",
    "the least resistance",
    "the least capacitance",
    "the least inductance",
    "no resistance of the fault",
    "32 stations, 64 cables",
];

impl Circuits {
    /// The case that no accepted grid is in: 1/(LC) is at least 7.5e-6 there, and a smaller double lies at least 8e-22 below it.
    pub const NEVER: &'static str = "an underdamped current without frequency";

    /// Adds an accepted circuit with its answer.
    pub fn add(&mut self, job: &[u64], answer: &[u64]) {
        let mut numbers = job[1..].iter().copied();
        let grid = grids::grid(&mut numbers).expect("a whole job");
        let fault = grids::fault(&mut numbers).expect("a whole job");
        let t_ms = double(numbers.next().expect("a whole job"));
        let (stations, cables) = (&grid.simulator.stations, &grid.simulator.cables);
        let case = damping(&grid.simulator, &fault);
        let [damped, natural] = damping_squares(&grid.simulator, &fault);
        let [l_mh, c_uf, ohms, fault_ohms, _, current_ka, left_ka] =
            [1, 2, 3, 4, 5, 6, 7].map(|i| double(answer[i]));
        let cable = &cables[fault.location_cable_id.min(cables.len() - 1)];
        let met = [
            case == Damping::Under,
            case == Damping::UnderWithoutFrequency,
            case == Damping::Over,
            case == Damping::Critical,
            damped.next_up() == natural,
            damped.next_down() == natural,
            t_ms < fault.inception_time_ms,
            t_ms == fault.inception_time_ms,
            current_ka == 0.0,
            current_ka > 0.0,
            current_ka.is_nan(),
            left_ka == 0.0,
            left_ka == 1e-6 || left_ka == 1e-6f64.next_up(),
            left_ka > 1e-6 && left_ka.is_finite(),
            left_ka.is_nan(),
            left_ka == f64::INFINITY,
            fault.fault_type == DcFaultType::PoleToGround,
            fault.fault_type == DcFaultType::PoleToPole,
            fault.fault_type == DcFaultType::ConverterInternal,
            fault.location_cable_id >= cables.len(),
            cable.from_station >= stations.len(),
            ohms == 0.01,
            c_uf == 0.01,
            l_mh == 1.0,
            fault_ohms == 0.0,
            stations.len() == 32 && cables.len() == 64,
        ];
        self.all += 1;
        for (count, met) in self.counts.iter_mut().zip(met) {
            *count += u64::from(met);
        }
    }

    /// What was counted, each with its name.
    pub fn counted(&self) -> impl Iterator<Item = (&'static str, u64)> + '_ {
        NAMES.into_iter().zip(self.counts)
    }
}

impl fmt::Display for Circuits {
    fn fmt(&self, f: &mut fmt::Formatter) -> fmt::Result {
        write_counted(f, self.all, "accepted fault circuits", self.counted())
    }
}
