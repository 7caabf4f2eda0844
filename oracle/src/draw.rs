//! Jobs drawn at random, the same ones from the same seed.

mod circuits;
mod detections;
mod flows;
mod grids;
mod points;
mod printed;
mod runs;
pub mod sheets;
mod steps;
mod sweeps;

use crate::jobs::{
    is_kept, is_point, CIRCUIT, DETECTION, FAULT_RUN, FLOATS, FLOW, KEPT_SWEEP, PRINTED, STEP,
    SWEEP, SWITCHING_RUN, TIMED_FAULT_RUN,
};
use crate::plan::End;
use std::f64::consts::PI;

/// SplitMix64.
pub struct Random(u64);

impl Random {
    pub fn new(seed: u64) -> Self {
        Random(seed)
    }

    pub fn bits(&mut self) -> u64 {
        self.0 = self.0.wrapping_add(0x9e3779b97f4a7c15);
        let mut z = self.0;
        z = (z ^ (z >> 30)).wrapping_mul(0xbf58476d1ce4e5b9);
        z = (z ^ (z >> 27)).wrapping_mul(0x94d049bb133111eb);
        z ^ (z >> 31)
    }

    pub fn below(&mut self, n: u64) -> u64 {
        self.bits() % n
    }

    /// From 0 to 1.
    pub fn fraction(&mut self) -> f64 {
        (self.bits() >> 11) as f64 / (1u64 << 53) as f64
    }

    pub fn pick<T: Copy>(&mut self, from: &[T]) -> T {
        from[self.below(from.len() as u64) as usize]
    }
}

/// A job, its own number first, and the values in it that stand at an end of what a rule accepts.
pub struct Drawn {
    pub numbers: Vec<u64>,
    pub put: Vec<Put>,
}

/// A value at an end of what a rule accepts.
pub struct Put {
    pub field: &'static str,
    pub rule: u64,
    pub end: End,
}

pub fn job(number: u64, random: &mut Random) -> Drawn {
    match number {
        FLOATS => Drawn {
            numbers: floats(random),
            put: Vec::new(),
        },
        PRINTED => printed::job(random),
        // One in four has values at the ends of what the rules accept.
        FLOW if random.below(4) > 0 => flows::job(random),
        DETECTION if random.below(4) > 0 => detections::job(random),
        STEP if random.below(4) > 0 => steps::job(random),
        CIRCUIT if random.below(4) > 0 => circuits::job(random),
        FAULT_RUN | SWITCHING_RUN if random.below(4) > 0 => runs::job(number, random),
        TIMED_FAULT_RUN if random.below(4) > 0 => runs::timed(random),
        SWEEP if random.below(4) > 0 => sweeps::job(random),
        _ if is_kept(number) && random.below(4) > 0 => match number {
            KEPT_SWEEP => sweeps::kept(random),
            _ => runs::kept(number, random),
        },
        _ if is_point(number) && random.below(4) > 0 => points::job(number, random),
        _ => grids::job(number, random),
    }
}

pub fn floats(random: &mut Random) -> Vec<u64> {
    let operation = random.below(6);
    let a = operand(operation, random);
    // A second operand that meets the first, for `max` and `min`; the other operations ignore it.
    let b = match random.below(8) {
        0 => a,
        1 => -a,
        2 => neighbour(a, random),
        _ => operand(operation, random),
    };
    vec![FLOATS, operation, a.to_bits(), b.to_bits()]
}

fn operand(operation: u64, random: &mut Random) -> f64 {
    match random.below(5) {
        0 => f64::from_bits(random.bits()),
        1 => some_exponent(random),
        2 => whole(random),
        3 => {
            let special = random.pick(&SPECIAL);
            neighbour(special, random)
        }
        _ => natural(operation, random),
    }
}

/// Either sign, an exponent of common size, and any digits.
fn some_exponent(random: &mut Random) -> f64 {
    let exponent = 1023 - 64 + random.below(128);
    let signed = random.below(2) << 63 | exponent << 52;
    f64::from_bits(signed | random.bits() >> 12)
}

/// The bits of any double, of which every form is likely: NaNs of all patterns, infinities, zeros, subnormals, huge ones.
fn any_form(random: &mut Random) -> u64 {
    let sign = random.below(2) << 63;
    match random.below(8) {
        0 => f64::NAN.to_bits() | random.bits() >> 13 | sign,
        // A NaN that signals, which no operation gives.
        1 => f64::INFINITY.to_bits() | random.pick(&[1, 1 << 50]) | sign,
        2 => f64::INFINITY.to_bits() | sign,
        3 => sign,
        4 => random.bits() >> 12 >> random.below(52) | sign,
        5 => (f64::MAX / (1u64 << random.below(40)) as f64).to_bits() | sign,
        6 => random.bits(),
        _ => some_exponent(random).to_bits(),
    }
}

/// Any magnitude is as likely as any other.
fn power_of_ten(low: f64, high: f64, random: &mut Random) -> f64 {
    f64::powf(10.0, low + (high - low) * random.fraction())
}

/// A whole number of at most 53 binary digits, at times a square.
fn whole(random: &mut Random) -> f64 {
    let places = random.below(53);
    let n = random.bits() >> (63 - places);
    let n = if random.below(3) == 0 {
        (n >> (places / 2 + 1)).pow(2)
    } else {
        n
    };
    if random.below(4) == 0 {
        -(n as f64)
    } else {
        n as f64
    }
}

/// Where a definition changes, or a number's form does.
const SPECIAL: [f64; 20] = [
    0.0,
    -0.0,
    f64::MIN_POSITIVE,
    -f64::MIN_POSITIVE,
    f64::MAX,
    f64::MIN,
    f64::INFINITY,
    f64::NEG_INFINITY,
    f64::NAN,
    1.0,
    -1.0,
    4.0,
    -700.0,
    -1024.0,
    700.0,
    PI,
    2.0 * PI,
    3.0 * PI,
    -2.0 * PI,
    9007199254740992.0,
];

/// x, or one of the four doubles next to it on either side.
fn neighbour(x: f64, random: &mut Random) -> f64 {
    let steps = random.below(5);
    if random.below(2) == 0 {
        (0..steps).fold(x, |y, _| y.next_up())
    } else {
        (0..steps).fold(x, |y, _| y.next_down())
    }
}

/// An argument of the size that the studies have.
fn natural(operation: u64, random: &mut Random) -> f64 {
    match operation {
        0 => neighbour((random.fraction() * 100.0).powi(2), random),
        1 if random.below(2) == 0 => -710.0 * random.fraction(),
        1 => -random.fraction() / (1u64 << random.below(60)) as f64,
        2 if random.below(2) == 0 => random.fraction() * 1e6,
        2 => {
            let multiple = random.below(4096) as f64 * PI;
            neighbour(multiple, random)
        }
        3 => (random.fraction() * 181.0).to_radians(),
        _ => random.below(5) as f64 - 2.0,
    }
}

/// Draws that many jobs, each of which must be accepted, and hands them on with the Rust's answers.
#[cfg(test)]
fn each_accepted(
    times: usize,
    draw: impl Fn(&mut Random) -> Drawn,
    mut met: impl FnMut(&[u64], &[u64]),
) {
    let mut random = Random::new(1);
    for _ in 0..times {
        let job = draw(&mut random);
        let mut output = Vec::new();
        crate::jobs::answer(&mut job.numbers.iter().copied(), &mut output).expect("a whole job");
        assert_eq!(output[0], 0, "{:?}", job.numbers);
        met(&job.numbers, &output);
    }
}
