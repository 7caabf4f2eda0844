//! The doubles that were printed.

use super::{write_counted, Counts};
use crate::numbers::double;
use std::fmt;

#[derive(Default)]
pub struct Printed(Counts);

/// The first that has no room, above 0 and below it.
const ABOVE: f64 = 1e13;
const BELOW: f64 = -1e12;

/// The largest double that is printed as 0: half a millionth lies above it, and below the next one.
const ZERO: f64 = 5e-7;

/// An odd number of 128ths lies in the middle of two millionths, and nothing else does. Modulo 4 it says which of them is even.
fn tie(x: f64) -> Option<u64> {
    let parts = x.abs() * 128.0;
    let is_odd = parts % 2.0 == 1.0;
    is_odd.then_some((parts % 4.0) as u64)
}

impl Printed {
    /// Adds a job.
    pub fn add(&mut self, job: &[u64]) {
        let x = double(job[1]);
        let has_room = BELOW < x && x < ABOVE;
        let beside_a_tie = || {
            [x.next_up(), x.next_down()]
                .into_iter()
                .any(|y| tie(y).is_some())
        };
        self.0.add(vec![
            ("a NaN", x.is_nan()),
            ("an infinity", x.is_infinite()),
            ("no room, above 0", x >= ABOVE && x.is_finite()),
            ("no room, below 0", x <= BELOW && x.is_finite()),
            ("the first without room", x == ABOVE || x == BELOW),
            ("the last with room above 0", x == ABOVE.next_down()),
            ("the last with room below 0", x == BELOW.next_up()),
            ("twenty characters", has_room && (x >= 1e12 || x <= -1e11)),
            ("a number above 0", ZERO < x && has_room),
            ("a number below 0", x < -ZERO && has_room),
            ("0 of a number above 0", 0.0 < x && x <= ZERO),
            ("0 of a number below 0", -ZERO <= x && x < 0.0),
            ("0", job[1] == 0),
            ("-0", job[1] == 1 << 63),
            ("a subnormal", x.is_subnormal()),
            ("a tie that goes down", has_room && tie(x) == Some(1)),
            ("a tie that goes up", has_room && tie(x) == Some(3)),
            ("a double beside a tie", has_room && beside_a_tie()),
        ]);
    }

    pub fn all(&self) -> u64 {
        self.0.all
    }

    /// What was counted, each with its name.
    pub fn counted(&self) -> Vec<(&'static str, u64)> {
        self.0.kinds.clone()
    }
}

impl fmt::Display for Printed {
    fn fmt(&self, f: &mut fmt::Formatter) -> fmt::Result {
        write_counted(f, self.0.all, "printed values", self.counted())
    }
}
