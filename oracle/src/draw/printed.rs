//! Printed values: doubles of every size, and those beside which the printed text changes.

use super::{any_form, neighbour, Drawn, Random};
use crate::jobs::PRINTED;

pub fn job(random: &mut Random) -> Drawn {
    Drawn {
        numbers: vec![PRINTED, double(random)],
        put: Vec::new(),
    }
}

/// By its bits.
fn double(random: &mut Random) -> u64 {
    let size = match random.below(8) {
        0 => return random.bits(),
        1 => return any_form(random),
        2 => common(random),
        3 => beside(power_of_two(random), random),
        4 => beside(power_of_ten(random), random),
        5 => tie(random),
        // The first that have no room, and the last that have; 9999999999999.999999 is nearest to 1e13.
        6 => {
            let first = random.pick(&[1e13, 1e12]);
            neighbour(first, random)
        }
        _ => half_millionth(random),
    };
    size.to_bits() | random.below(2) << 63
}

/// x, or the double on either side of it.
fn beside(x: f64, random: &mut Random) -> f64 {
    random.pick(&[x, x.next_up(), x.next_down()])
}

/// From 2^-30 to 2^50, which is about 1e-9 to 1e15.
fn common(random: &mut Random) -> f64 {
    let exponent = 1023 - 30 + random.below(80);
    f64::from_bits(exponent << 52 | random.bits() >> 12)
}

/// Of common size, or any that is a double.
fn power_of_two(random: &mut Random) -> f64 {
    // Counted from the smallest subnormal on.
    let n = match random.below(4) {
        0 => random.below(2098),
        _ => 1074 - 40 + random.below(100),
    };
    f64::from_bits(if n < 52 { 1 << n } else { (n - 51) << 52 })
}

fn power_of_ten(random: &mut Random) -> f64 {
    let exponent = random.below(30) as i64 - 10;
    let nearest = format!("1e{exponent}").parse();
    nearest.expect("a number")
}

/// An odd number of 128ths, which has seven places, the last a 5; at times a double beside one.
fn tie(random: &mut Random) -> f64 {
    let whole = random.bits() >> 20 >> random.below(45);
    let odd = 2 * random.below(64) + 1;
    let x = whole as f64 + odd as f64 / 128.0;
    match random.below(2) {
        0 => x,
        _ => beside(x, random),
    }
}

/// Halves of a millionth, few or many, and the doubles beside them: 5e-7 and 1.5e-6 in one of four.
fn half_millionth(random: &mut Random) -> f64 {
    let x = match random.below(4) {
        0 => random.pick(&[5e-7, 1.5e-6]),
        1 => random.below(100) as f64 / 2e6,
        _ => (random.bits() >> 11 >> random.below(53)) as f64 / 2e6,
    };
    neighbour(x, random)
}

#[cfg(test)]
mod tests {
    use super::*;
    use crate::tally::Printed;

    #[test]
    fn of_every_kind() {
        let mut random = Random::new(1);
        let mut met = Printed::default();
        for _ in 0..3000 {
            met.add(&job(&mut random).numbers);
        }
        for (name, count) in met.counted() {
            assert!(count > 0, "{name}");
        }
    }
}
