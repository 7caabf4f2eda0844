//! Operating points of stations that are accepted, at any doubles.

use super::grids::{set_inside, station};
use super::{neighbour, some_exponent, Drawn, Random, SPECIAL};
use crate::jobs::LCC_POINT;
use crate::plan::{Accepted, End, Plan};

pub fn job(number: u64, random: &mut Random) -> Drawn {
    let mut plan = Plan::small(number);
    plan.stations = vec![station(random)];
    for field in plan.fields() {
        match (field.accepted, random.below(4)) {
            (accepted, 0) => {
                let end = random.pick(&[End::Low, End::High]);
                plan.set(&field, accepted.at(end).expect("there is such an end"));
            }
            // Of common size, and around the least power that is divided by.
            (Accepted::Doubles(range), 1) => {
                let x = random.pick(&[1e-9, 1e-6, 0.1, 1.0, 15.0, 90.0, 320.0, 1000.0]);
                let x = neighbour(x, random).clamp(range.low, range.high);
                plan.set(&field, x.to_bits());
            }
            _ => set_inside(&mut plan, &field, random),
        }
    }
    plan.rest = doubles(number, random);
    Drawn {
        numbers: plan.numbers(),
        put: Vec::new(),
    }
}

/// The current of an LCC, or power and voltage of a VSC.
pub fn doubles(number: u64, random: &mut Random) -> Vec<u64> {
    let count = if number == LCC_POINT { 1 } else { 2 };
    (0..count).map(|_| double(random).to_bits()).collect()
}

fn double(random: &mut Random) -> f64 {
    match random.below(10) {
        0 => f64::from_bits(random.bits()),
        1 => some_exponent(random),
        2 => {
            let special = random.pick(&SPECIAL);
            neighbour(special, random)
        }
        3 => random.pick(&[f64::NAN, f64::INFINITY, f64::NEG_INFINITY, 0.0, -0.0]),
        // A subnormal.
        4 => f64::from_bits(random.bits() >> 12 >> random.below(52)),
        // The least voltage, and the one that leaves the least on the other side.
        5 => {
            let least = random.pick(&[1e-6, 1.5f64.sqrt() * 1e-6]);
            neighbour(least, random)
        }
        6 => 10.0 * random.fraction(),
        _ => 2000.0 * random.fraction() - 200.0,
    }
}

#[cfg(test)]
mod tests {
    use super::*;
    use crate::draw::each_accepted;
    use crate::jobs::VSC_POINT;
    use crate::tally::Points;

    #[test]
    fn accepted_and_of_every_kind() {
        for number in [LCC_POINT, VSC_POINT] {
            let mut met = Points::default();
            each_accepted(
                1000,
                |random| job(number, random),
                |_, answer| met.add(answer),
            );
            for (name, count) in met.counted() {
                assert!(count > 0, "{name}");
            }
        }
    }
}
