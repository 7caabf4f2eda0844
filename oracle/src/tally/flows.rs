//! The flows that no rule refused.

use super::write_counted;
use crate::grids::{self, Grid};
use crate::jobs::POINT;
use std::fmt;

#[derive(Default)]
pub struct Flows {
    pub all: u64,
    pub converged: u64,
    /// Pass 1, 2 to 5, 6 to 49, and 50 with or without convergence.
    pub passes: [u64; 4],
    pub converged_last: u64,
    /// With one station, with two, with more.
    pub sizes: [u64; 3],
    pub full: u64,
    pub not_finite: u64,
    /// With a voltage more than ten times the rated one, or of the other sign.
    pub far: u64,
    pub largest_kv: f64,
    pub clamped_low: u64,
    pub clamped_high: u64,
    pub to_itself: u64,
    pub parallel: u64,
    pub past_the_count: u64,
    pub least_resistance: u64,
}

impl Flows {
    /// Adds an accepted flow with its answer.
    pub fn add(&mut self, job: &[u64], answer: &[u64]) {
        let grid = grids::grid(&mut job[1..].iter().copied()).expect("a whole job");
        let [converged, passes] = [answer[1], answer[2]];
        let n = grid.simulator.stations.len();
        self.all += 1;
        self.converged += converged;
        self.passes[match passes {
            1 => 0,
            2..=5 => 1,
            6..=49 => 2,
            _ => 3,
        }] += 1;
        self.converged_last += u64::from(converged == 1 && passes == 50);
        self.sizes[n.min(3) - 1] += 1;
        self.full += u64::from(n == 32 && grid.simulator.cables.len() == 64);
        self.add_voltages(&grid, &answer[4..4 + POINT * n]);
        self.add_cables(&grid);
    }

    fn add_voltages(&mut self, grid: &Grid, points: &[u64]) {
        let voltages: Vec<[f64; 2]> = grid
            .simulator
            .stations
            .iter()
            .zip(points.chunks(POINT))
            .map(|(station, point)| [station.v_dc_rated_kv, f64::from_bits(point[2])])
            .collect();
        // The first is given, and of two stations none is clamped.
        let clamped = if voltages.len() > 2 {
            1
        } else {
            voltages.len()
        };
        let at = |part: f64| {
            voltages[clamped..]
                .iter()
                .any(|[rated, v]| *v == rated * part)
        };
        self.clamped_low += u64::from(at(0.5));
        self.clamped_high += u64::from(at(1.5));
        for [_, v] in &voltages {
            self.largest_kv = self.largest_kv.max(v.abs());
        }
        self.not_finite += u64::from(voltages.iter().any(|[_, v]| !v.is_finite()));
        self.far += u64::from(
            voltages
                .iter()
                .any(|[rated, v]| *v < 0.0 || *v > 10.0 * rated),
        );
    }

    fn add_cables(&mut self, grid: &Grid) {
        let n = grid.simulator.stations.len();
        let cables = &grid.simulator.cables;
        let ends: Vec<[usize; 2]> = cables
            .iter()
            .map(|c| [c.from_station, c.to_station])
            .collect();
        let joins = |[a, b]: [usize; 2]| a < n && b < n && a != b;
        let parallel = |(i, &[a, b]): (usize, &[usize; 2])| {
            joins([a, b]) && ends[..i].iter().any(|&e| e == [a, b] || e == [b, a])
        };
        self.parallel += u64::from(ends.iter().enumerate().any(parallel));
        self.to_itself += u64::from(ends.iter().any(|&[a, b]| a == b && a < n));
        self.past_the_count += u64::from(ends.iter().any(|&[a, b]| a >= n || b >= n));
        self.least_resistance += u64::from(cables.iter().any(|c| c.r_per_km * c.length_km <= 1e-9));
    }

    /// What was counted, each with its name.
    pub fn counted(&self) -> [(&'static str, u64); 19] {
        let [one, two, more] = self.sizes;
        let [first, few, some, last] = self.passes;
        [
            ("converged", self.converged),
            ("not converged", self.all - self.converged),
            ("1 pass", first),
            ("2 to 5 passes", few),
            ("6 to 49 passes", some),
            ("50 passes", last),
            ("converged in pass 50", self.converged_last),
            ("one station", one),
            ("two stations", two),
            ("three stations or more", more),
            ("32 stations, 64 cables", self.full),
            ("a voltage clamped below", self.clamped_low),
            ("a voltage clamped above", self.clamped_high),
            ("a voltage negative or ten times rated", self.far),
            ("a NaN or infinite voltage", self.not_finite),
            ("a cable from a station to itself", self.to_itself),
            ("parallel cables", self.parallel),
            ("an end past the count", self.past_the_count),
            ("a cable at the least resistance", self.least_resistance),
        ]
    }
}

impl fmt::Display for Flows {
    fn fmt(&self, f: &mut fmt::Formatter) -> fmt::Result {
        if self.all == 0 {
            return Ok(());
        }
        write_counted(f, self.all, "accepted flows", self.counted())?;
        writeln!(f, "The largest voltage is {:.3e} kV.", self.largest_kv)
    }
}
