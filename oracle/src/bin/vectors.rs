//! Prints the fixed jobs that the program `replay` is run on: float operations (job 8), then jobs on grids, then printed values (job 16).

use oracle::draw::Random;
use oracle::numbers::write_number;
use oracle::sample;
use std::collections::HashSet;
use std::f64::consts::PI;
use std::io::{self, BufWriter, Write};

const SQRT: u64 = 0;
const E: u64 = 1;
const S: u64 = 2;
const C: u64 = 3;
const MAX: u64 = 4;
const MIN: u64 = 5;

/// The operations in the order in which they were added, each once.
struct Vectors {
    list: Vec<[u64; 4]>,
    seen: HashSet<[u64; 4]>,
}

impl Vectors {
    fn add_bits(&mut self, operation: u64, a: u64, b: u64) {
        let vector = [8, operation, a, b];
        if self.seen.insert(vector) {
            self.list.push(vector);
        }
    }

    fn add(&mut self, operation: u64, a: f64) {
        self.add_bits(operation, a.to_bits(), 0);
    }

    /// a and the doubles next to it.
    fn add_around(&mut self, operation: u64, a: f64) {
        self.add(operation, a);
        self.add(operation, a.next_down());
        self.add(operation, a.next_up());
    }
}

fn main() -> io::Result<()> {
    let mut vectors = Vectors {
        list: Vec::new(),
        seen: HashSet::new(),
    };
    for operation in [SQRT, E, S, C] {
        for a in forms() {
            vectors.add_bits(operation, a, 0);
        }
    }
    roots(&mut vectors);
    exponentials(&mut vectors);
    sines(&mut vectors);
    cosines(&mut vectors);
    choices(&mut vectors);
    let mut output = BufWriter::new(io::stdout().lock());
    for n in vectors.list.into_iter().flatten() {
        write_number(&mut output, n)?;
    }
    for n in sample::jobs().into_iter().flatten() {
        write_number(&mut output, n)?;
    }
    output.flush()
}

/// A double of each form, of both signs.
fn forms() -> Vec<u64> {
    let positive = [
        0.0f64.to_bits(),
        1, // the smallest subnormal
        2,
        3,
        1 << 26,
        1 << 51,
        (1 << 52) - 2,
        (1 << 52) - 1, // the largest subnormal
        f64::MIN_POSITIVE.to_bits(),
        f64::MIN_POSITIVE.to_bits() + 1,
        1.0f64.to_bits(),
        f64::MAX.to_bits() - 1,
        f64::MAX.to_bits(),
        f64::INFINITY.to_bits(),
        f64::INFINITY.to_bits() + 1, // the NaNs
        0x7ff4_0000_0000_0000,
        0x7ff8_0000_0000_0000,
        0x7ff8_0000_0000_0001,
        0x7fff_ffff_ffff_ffff,
    ];
    positive
        .into_iter()
        .flat_map(|bits| [bits, bits | 1 << 63])
        .collect()
}

/// 2 to the power of `exponent`, from -1074 to 1023.
fn power_of_two(exponent: i64) -> f64 {
    if exponent < -1022 {
        f64::from_bits(1 << (exponent + 1074))
    } else {
        f64::from_bits(((exponent + 1023) as u64) << 52)
    }
}

fn roots(vectors: &mut Vectors) {
    let whole: [u64; 21] = [
        1, 2, 3, 5, 6, 7, 9, 10, 11, 12, 15, 255, 256, 1000, 4097, 65535, 65536, 1000001, 67108863,
        67108864, 94906265,
    ];
    for n in whole {
        vectors.add_around(SQRT, (n * n) as f64);
    }
    for n in [1.5, 0.75, 0.625, 0.0009765625, 1.1920928955078125e-7] {
        vectors.add_around(SQRT, n * n);
    }
    for n in [
        2.0, 3.0, 0.1, 0.2, 1.5, 1e-9, 1e9, 1e-300, 1e300, 314.0, -1.0, -4.0,
    ] {
        vectors.add(SQRT, n);
    }
    let exponents = [
        -1074, -1073, -1072, -1071, -1048, -1047, -1024, -1023, -1022, -1021, -512, -511, -53, -52,
        -2, -1, 1, 2, 3, 52, 53, 511, 512, 1022, 1023,
    ];
    for e in exponents {
        vectors.add(SQRT, power_of_two(e));
    }
    // Beside an even power of two: above it the root rounds to a power of two, below it to the double before one.
    for e in [-1022, -1000, -2, 0, 2, 4, 52, 54, 1000, 1022] {
        vectors.add_around(SQRT, power_of_two(e));
    }
    // Beside an odd one its digits are those of SQRT_2.
    for e in [-1021, -1, 1, 3, 53, 1023] {
        vectors.add_around(SQRT, power_of_two(e));
    }
    let mut random = Random::new(1);
    for k in 0..96 {
        // One of every 21 exponents or so, the subnormals among them.
        let exponent = k * 2047 / 96;
        vectors.add_bits(SQRT, exponent << 52 | random.bits() >> 12, 0);
    }
    for k in 0..12 {
        vectors.add_bits(SQRT, (random.bits() >> 12) >> (4 * k), 0);
    }
}

fn exponentials(vectors: &mut Vectors) {
    let edges = [
        -700.0, -1.0, 0.0, 1.0, 700.0, -1024.0, 1024.0, -709.0, 709.0, -512.0, -0.5, -699.0,
        -701.0, -1e-3, -1e-16,
    ];
    for t in edges {
        vectors.add_around(E, t);
    }
    let more = [
        -1e-300,
        -1e-20,
        -1e-9,
        1e-300,
        1e-16,
        1e-9,
        0.5,
        -2.0,
        -10.0,
        -100.0,
        -350.0,
        -600.0,
        -690.0,
        -699.5,
        -699.99,
        -700.01,
        -709.782712893384,
        709.782712893384,
        -745.2,
        710.0,
        750.0,
        1e4,
        -1e4,
        1e10,
        -1e10,
        1e100,
        -1e100,
        1e308,
        -1e308,
    ];
    for t in more {
        vectors.add(E, t);
    }
    let mut random = Random::new(2);
    for k in 0..40 {
        vectors.add(E, -700.0 * random.fraction());
        vectors.add(E, -random.fraction() * power_of_two(-k));
    }
}

fn sines(vectors: &mut Vectors) {
    let multiples = [
        1, 2, 3, 4, 5, 6, 7, 8, 11, 16, 21, 100, 101, 1000, 1001, 65536, 1000001,
    ];
    for k in multiples {
        vectors.add_around(S, k as f64 * PI);
        vectors.add_around(S, k as f64 * (2.0 * PI));
    }
    for k in [1, 3, 5, 7, 9] {
        vectors.add_around(S, k as f64 * PI / 2.0);
    }
    for k in [1, 2, 3] {
        vectors.add_around(S, -(k as f64) * PI);
    }
    // The quotient is whole from 2^53 on; near it, and above.
    let w = 2.0 * PI;
    for n in [
        power_of_two(52),
        power_of_two(53),
        power_of_two(53) - 1.0,
        power_of_two(54),
        power_of_two(63),
        power_of_two(64),
    ] {
        vectors.add_around(S, n * w);
    }
    let more = [
        1e-300,
        1e-20,
        1e-9,
        0.001,
        0.1,
        0.5,
        1.0,
        2.0,
        3.0,
        4.0,
        6.0,
        7.0,
        10.0,
        314.15,
        1e3,
        1e4,
        1e5,
        1e6,
        1e7,
        1e9,
        1e10,
        1e12,
        1e15,
        9007199254740992.0,
        1e16,
        1e17,
        1e18,
        1e19,
        1e20,
        1e22,
        1e50,
        1e100,
        1e154,
        1e155,
        1e200,
        1e300,
        1e308,
        -1e-9,
        -0.5,
        -1.0,
        -3.0,
        -4.0,
        -6.0,
        -7.0,
        -10.0,
        -1e3,
        -1e6,
        -1e10,
        -1e17,
        -1e100,
        -1e308,
    ];
    for t in more {
        vectors.add(S, t);
    }
    let mut random = Random::new(3);
    for k in 0..20 {
        vectors.add(S, w * random.fraction());
        vectors.add(S, random.fraction() * power_of_two(3 * k));
    }
}

fn cosines(vectors: &mut Vectors) {
    for sixteenths in 0..=34 {
        vectors.add(C, f64::from(sixteenths) * PI / 16.0);
    }
    for t in [PI / 2.0, PI, 2.0 * PI, 3.0 * PI / 2.0, PI / 3.0, 1.0] {
        vectors.add_around(C, t);
    }
    for degrees in [
        1.0, 15.0, 30.0, 45.0, 60.0, 89.0, 90.0, 91.0, 120.0, 150.0, 179.0, 179.999, 180.0,
        180.001, 181.0, 200.0, 270.0, 360.0,
    ] {
        vectors.add_around(C, f64::to_radians(degrees));
    }
    let more = [
        1e-300, 1e-20, 1e-9, 1e-8, 0.001, 0.1, 0.5, 4.0, 5.0, 6.0, 7.0, 8.0, 10.0, 12.0, 20.0,
        100.0, 1e3, 1e10, 1e100, 1e154, 1.3e154, 1.4e154, 1e155, 1e308, -1e-9, -0.5, -1.0, -3.0,
        -PI, -5.0, -100.0, -1e100, -1e308,
    ];
    for t in more {
        vectors.add(C, t);
    }
    let mut random = Random::new(4);
    for _ in 0..20 {
        vectors.add(C, PI * random.fraction());
    }
}

fn choices(vectors: &mut Vectors) {
    let values = [
        0.0f64,
        -0.0,
        1.0,
        -1.0,
        f64::INFINITY,
        f64::NEG_INFINITY,
        f64::NAN,
        f64::MAX,
        f64::from_bits(1),
    ];
    for operation in [MAX, MIN] {
        for a in values {
            for b in values {
                vectors.add_bits(operation, a.to_bits(), b.to_bits());
            }
        }
        for form in forms() {
            vectors.add_bits(operation, form, 1.0f64.to_bits());
            vectors.add_bits(operation, 1.0f64.to_bits(), form);
        }
        for x in [f64::MIN_POSITIVE, -1.0, 500.0, 1e-6] {
            vectors.add_bits(operation, x.to_bits(), x.next_up().to_bits());
            vectors.add_bits(operation, x.next_up().to_bits(), x.to_bits());
            vectors.add_bits(operation, x.to_bits(), x.to_bits());
        }
    }
}
