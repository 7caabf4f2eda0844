//! Printed values: doubles of every form, and those beside which the printed text changes.

use crate::jobs::PRINTED;
use crate::numbers::NAN;

/// Each once, and some with the doubles next to them.
pub fn values() -> Vec<Vec<u64>> {
    let alone = [
        0.0,
        -0.0,
        f64::from_bits(1),
        -f64::from_bits(1),
        f64::from_bits((1 << 52) - 1),
        f64::MIN_POSITIVE,
        -1e-300,
        1e-9,
        4e-7,
        -4e-7,
        1e-6,
        -1e-6,
        0.1,
        -0.5,
        0.9999994,
        0.9999996,
        -0.9999996,
        1.0,
        -1.0,
        -12.75,
        16.000001,
        320.0,
        99999.999999,
        123456789.123456,
        4294967296.0,
        -99999999999.99998,
        1e15,
        9007199254740992.0,
        1e22,
        -1e300,
        f64::MAX,
        f64::MIN,
        f64::INFINITY,
        f64::NEG_INFINITY,
        // Ties, of which every other one goes down.
        -1.0 / 128.0,
        -3.0 / 128.0,
        127.0 / 128.0,
        123456.0 + 5.0 / 128.0,
        -4095.0 - 7.0 / 128.0,
        8796093022207.0 + 1.0 / 128.0,
    ];
    let with_neighbours: [f64; 9] = [
        5e-7,
        -5e-7,
        1.5e-6,
        2.5e-6,
        1.0 / 128.0,
        3.0 / 128.0,
        1e12,
        -1e12,
        1e13,
    ];
    let mut bits = alone.map(f64::to_bits).to_vec();
    for x in with_neighbours {
        bits.extend([x, x.next_down(), x.next_up()].map(f64::to_bits));
    }
    // Any pattern of a NaN is a NaN.
    bits.extend([NAN, u64::MAX, f64::INFINITY.to_bits() + 1]);
    bits.into_iter().map(|x| vec![PRINTED, x]).collect()
}
