//! The detections on grids that no rule refused.

use super::write_counted;
use crate::grids;
use crate::numbers::double;
use std::fmt;

#[derive(Default)]
pub struct Detections {
    pub all: u64,
    pub detected: u64,
    pub by_one_current: u64,
    pub by_the_last_current: u64,
    pub by_one_voltage: u64,
    pub by_the_last_voltage: u64,
    /// By entries of both kinds.
    pub by_both: u64,
    /// Of those with a current or a voltage right at a threshold, the ones that were not detected.
    pub at_slope: u64,
    pub at_voltage: u64,
    /// One double beyond a threshold, and nothing else beyond one.
    pub beside_slope: u64,
    pub beside_voltage: u64,
    pub least_time: u64,
    pub reversed: u64,
    pub nan_time: u64,
    pub with_nan: u64,
    pub with_infinity: u64,
    pub with_subnormal: u64,
    pub no_cable: u64,
    pub full: u64,
}

impl Detections {
    /// Adds an accepted detection with its answer.
    pub fn add(&mut self, job: &[u64], answer: &[u64]) {
        let mut numbers = job[1..].iter().copied();
        let grid = grids::grid(&mut numbers).expect("a whole job");
        let given: Vec<f64> = numbers.map(double).collect();
        let (later, earlier) = given.split_at(given.len() / 2);
        let n = grid.simulator.stations.len();
        let apart = (later[0] - earlier[0]).abs();
        let slopes: Vec<f64> = later[1 + n..]
            .iter()
            .zip(&earlier[1 + n..])
            .map(|(now, before)| (now - before).abs() / apart.max(1e-9))
            .collect();
        let beyond: Vec<f64> = grid
            .simulator
            .stations
            .iter()
            .zip(&later[1..])
            .map(|(station, v)| v / (0.8 * station.v_dc_rated_kv))
            .collect();
        let steep = positions(&slopes, |slope| slope > 10.0);
        let low = positions(&beyond, |part| part < 1.0);
        let detected = answer[1] == 1;
        self.all += 1;
        self.detected += answer[1];
        self.by_both += u64::from(!steep.is_empty() && !low.is_empty());
        let one_current = low.is_empty() && steep.len() == 1;
        let one_voltage = steep.is_empty() && low.len() == 1;
        self.by_one_current += u64::from(one_current);
        self.by_the_last_current +=
            u64::from(one_current && slopes.len() > 1 && steep[0] == slopes.len() - 1);
        self.by_one_voltage += u64::from(one_voltage);
        self.by_the_last_voltage += u64::from(one_voltage && n > 1 && low[0] == n - 1);
        self.at_slope += u64::from(!detected && slopes.contains(&10.0));
        self.beside_slope += u64::from(one_current && slopes[steep[0]] == 10f64.next_up());
        let stations = &grid.simulator.stations;
        self.at_voltage +=
            u64::from(!detected && (0..n).any(|i| later[1 + i] == 0.8 * stations[i].v_dc_rated_kv));
        self.beside_voltage += u64::from(
            one_voltage && later[1 + low[0]].next_up() == 0.8 * stations[low[0]].v_dc_rated_kv,
        );
        self.least_time += u64::from(apart < 1e-9);
        self.reversed += u64::from(later[0] < earlier[0]);
        self.nan_time += u64::from(apart.is_nan());
        let any = |is: fn(f64) -> bool| u64::from(given.iter().any(|&x| is(x)));
        self.with_nan += any(f64::is_nan);
        self.with_infinity += any(f64::is_infinite);
        self.with_subnormal += any(f64::is_subnormal);
        self.no_cable += u64::from(slopes.is_empty());
        self.full += u64::from(n == 32 && slopes.len() == 64);
    }

    /// What was counted, each with its name.
    pub fn counted(&self) -> [(&'static str, u64); 19] {
        [
            ("detected", self.detected),
            ("not detected", self.all - self.detected),
            ("one current that tells", self.by_one_current),
            ("the last current alone", self.by_the_last_current),
            ("one voltage that tells", self.by_one_voltage),
            ("the last voltage alone", self.by_the_last_voltage),
            ("currents and voltages that tell", self.by_both),
            ("10 kA/ms, not detected", self.at_slope),
            ("one double more, alone", self.beside_slope),
            ("0.8 of the rated voltage, not detected", self.at_voltage),
            ("one double less, alone", self.beside_voltage),
            ("times less than 1e-9 ms apart", self.least_time),
            ("times the other way round", self.reversed),
            ("times whose difference is a NaN", self.nan_time),
            ("a NaN in a state", self.with_nan),
            ("an infinity in a state", self.with_infinity),
            ("a subnormal in a state", self.with_subnormal),
            ("no cable", self.no_cable),
            ("32 stations, 64 cables", self.full),
        ]
    }
}

fn positions(of: &[f64], is: fn(f64) -> bool) -> Vec<usize> {
    (0..of.len()).filter(|&i| is(of[i])).collect()
}

impl fmt::Display for Detections {
    fn fmt(&self, f: &mut fmt::Formatter) -> fmt::Result {
        write_counted(f, self.all, "accepted detections", self.counted())
    }
}
