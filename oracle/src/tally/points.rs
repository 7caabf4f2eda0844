//! The operating points of stations that no rule refused.

use super::write_counted;
use std::fmt;

#[derive(Default)]
pub struct Points {
    pub all: u64,
    pub with_nan: u64,
    pub with_infinity: u64,
    pub finite: u64,
}

impl Points {
    /// Adds an accepted point by its answer: refusal, id, then the doubles.
    pub fn add(&mut self, answer: &[u64]) {
        let any = |is: fn(f64) -> bool| answer[2..].iter().any(|&x| is(f64::from_bits(x)));
        self.all += 1;
        self.with_nan += u64::from(any(f64::is_nan));
        self.with_infinity += u64::from(any(f64::is_infinite));
        self.finite += u64::from(!any(|x| !x.is_finite()));
    }

    /// What was counted, each with its name.
    pub fn counted(&self) -> [(&'static str, u64); 3] {
        [
            ("a NaN", self.with_nan),
            ("an infinity", self.with_infinity),
            ("finite doubles alone", self.finite),
        ]
    }
}

impl fmt::Display for Points {
    fn fmt(&self, f: &mut fmt::Formatter) -> fmt::Result {
        write_counted(f, self.all, "accepted operating points", self.counted())
    }
}
