//! Flows that no rule refuses: grids at rest and lightly loaded ones, which converge, grids that no voltages satisfy, and what
//! cables may do beside joining two stations.

use super::grids::{breaker, inside, seen_in, set_inside, times};
use super::{neighbour, power_of_ten, Drawn, Random};
use crate::grids::{CABLES, STATIONS};
use crate::jobs::FLOW;
use crate::plan::{Plan, MMC};
use crate::rules::{Range, LAST_NUMBER, LENGTH, PER_KM, RATED_KV, RATED_MW};

pub fn job(random: &mut Random) -> Drawn {
    let style = Style::drawn(random);
    let n = stations(random);
    let mut plan = Plan::small(FLOW);
    plan.stations = (0..n).map(|_| station(&style, random)).collect();
    plan.cables = cables(n, &style, random);
    plan.breakers = (0..random.below(8) / 6).map(|_| breaker(random)).collect();
    plan.counts = [n, plan.cables.len() as u64, plan.breakers.len() as u64];
    for field in plan.fields().iter().filter(|field| field.rule == 8) {
        set_inside(&mut plan, field, random);
    }
    // No rule of a flow looks at them.
    plan.times = match random.below(8) {
        0 => [random.bits(), random.bits()],
        _ => times(random),
    };
    if n == 2 && random.below(4) == 0 {
        near_half(&mut plan, random);
    }
    Drawn {
        put: seen_in(&plan),
        numbers: plan.numbers(),
    }
}

/// What the parts of one grid are drawn around, since a grid whose parts have nothing in common never converges.
struct Style {
    rated_kv: f64,
    spread: Spread,
    /// Resistance of a cable.
    ohms: f64,
    /// Rated power, as a part of what a cable carries between the rated voltage and none.
    load: f64,
}

#[derive(Clone, Copy)]
enum Spread {
    Equal,
    Near,
    Far,
    Any,
}

impl Style {
    fn drawn(random: &mut Random) -> Style {
        let common = [1.0, 2.0, 10.0, 100.0, 320.0, 500.0, 525.0, 800.0, 2000.0];
        Style {
            rated_kv: match random.below(4) {
                0 => held(RATED_KV, 2000.0 * random.fraction()),
                _ => random.pick(&common),
            },
            spread: random.pick(&[
                Spread::Equal,
                Spread::Equal,
                Spread::Equal,
                Spread::Near,
                Spread::Far,
                Spread::Any,
            ]),
            ohms: match random.below(8) {
                0 => power_of_ten(-9.0, 7.0, random),
                _ => power_of_ten(-1.0, 2.0, random),
            },
            load: match random.below(8) {
                0 => 0.0,
                1 => power_of_ten(-15.0, -9.0, random),
                2..=5 => power_of_ten(-9.0, -1.0, random),
                _ => power_of_ten(-1.0, 3.0, random),
            },
        }
    }
}

/// x, or the end of the range that it is beyond.
pub fn held(range: Range, x: f64) -> f64 {
    x.clamp(range.low, range.high)
}

pub fn stations(random: &mut Random) -> u64 {
    match random.below(16) {
        0 => 1,
        1..=4 => 2,
        5..=6 => 3,
        7..=12 => 4 + random.below(6),
        13..=14 => 10 + random.below(22),
        _ => STATIONS,
    }
}

fn station(style: &Style, random: &mut Random) -> [u64; 11] {
    let topology = random.below(4);
    let submodules = match topology {
        MMC => random.pick(&[0, 1, 2, 4, 200, 400, LAST_NUMBER]),
        _ => random.bits(),
    };
    let angle = match random.below(4) {
        0 => 180.0 * random.fraction(),
        _ => random.pick(&[0.0, 15.0, 30.0, 60.0, 90.0, 120.0, 150.0, 180.0]),
    };
    let small = |random: &mut Random| random.pick(&[0.0, 0.1, 0.15, 3.0, 10.0]);
    let doubles = [
        rated_kv(style, random),
        rated_mw(style, random),
        small(random),
        small(random),
        angle,
        small(random),
        small(random),
        small(random),
    ];
    let mut station = [0; 11];
    station[..3].copy_from_slice(&[topology, submodules, random.below(LAST_NUMBER + 1)]);
    station[3..].copy_from_slice(&doubles.map(f64::to_bits));
    station
}

fn rated_kv(style: &Style, random: &mut Random) -> f64 {
    let kv = style.rated_kv;
    match style.spread {
        Spread::Equal => kv,
        Spread::Near => held(RATED_KV, kv * (0.95 + 0.1 * random.fraction())),
        Spread::Far => held(RATED_KV, kv * power_of_ten(-0.6, 0.6, random)),
        Spread::Any => f64::from_bits(inside(RATED_KV, random)),
    }
}

fn rated_mw(style: &Style, random: &mut Random) -> f64 {
    // A load without a cable is a mismatch that stays: below 1e-6 the grid has converged all the same.
    let least = 1e-6 / 0.8;
    match random.below(32) {
        0 => 0.0,
        1 => -0.0,
        2 if style.load > 1.0 => RATED_MW.high,
        3 if style.load < 1e-9 => neighbour(least, random),
        _ => {
            let whole = style.load * style.rated_kv * style.rated_kv / style.ohms;
            held(RATED_MW, whole * 2.0 * random.fraction())
        }
    }
}

/// How the cables of a grid join its stations.
#[derive(Clone, Copy)]
enum Shape {
    Star,
    Wheel,
    Path,
    Ring,
    Mesh,
    Full,
    Nothing,
}

/// The ends of the cables of a grid, and of others at times.
pub fn ends(n: u64, random: &mut Random) -> Vec<[u64; 2]> {
    let shape = random.pick(&[
        Shape::Star,
        Shape::Star,
        Shape::Wheel,
        Shape::Wheel,
        Shape::Wheel,
        Shape::Path,
        Shape::Ring,
        Shape::Mesh,
        Shape::Mesh,
        Shape::Full,
        Shape::Full,
        Shape::Nothing,
    ]);
    let mut ends: Vec<[u64; 2]> = match shape {
        Shape::Star => (1..n).map(|i| [0, i]).collect(),
        Shape::Wheel => (1..n)
            .flat_map(|i| [[0, i], [i, i % (n - 1) + 1]])
            .collect(),
        Shape::Path => (1..n).map(|i| [i - 1, i]).collect(),
        Shape::Ring => (0..n).map(|i| [i, (i + 1) % n]).collect(),
        Shape::Mesh => (0..random.below(2 * n + 1))
            .map(|_| [random.below(n), random.below(n)])
            .collect(),
        Shape::Full => (0..CABLES).map(|i| [i % n, (i + 1 + i / n) % n]).collect(),
        Shape::Nothing => Vec::new(),
    };
    if random.below(2) == 0 {
        add_others(&mut ends, n, random);
    }
    ends
}

fn cables(n: u64, style: &Style, random: &mut Random) -> Vec<[u64; 7]> {
    let ends = ends(n, random);
    let extremes = random.below(8) == 0;
    let mut cables: Vec<[u64; 7]> = ends
        .into_iter()
        .map(|[a, b]| match random.below(2) {
            0 => cable(a, b, extremes, style, random),
            _ => cable(b, a, extremes, style, random),
        })
        .collect();
    if n > 1 && random.below(8) == 0 {
        add_lost_conductance(&mut cables, n, random);
    }
    cables.truncate(CABLES as usize);
    cables
}

/// Cables beside the others or in their place: from a station to itself, between ends that are joined already, to no station.
fn add_others(ends: &mut Vec<[u64; 2]>, n: u64, random: &mut Random) {
    for _ in 0..1 + random.below(3) {
        let station = random.below(n);
        let far = n + random.below(100);
        let past = random.pick(&[n, n + 1, far, LAST_NUMBER]);
        let other = match random.below(4) {
            0 => [station, station],
            1 => [station, past],
            2 if random.below(4) == 0 => [past, past],
            _ if ends.is_empty() => [station, n - 1],
            _ => {
                let [a, b] = random.pick(ends);
                random.pick(&[[a, b], [b, a]])
            }
        };
        let at = random.below(ends.len() as u64 + 1) as usize;
        ends.insert(at, other);
    }
}

fn cable(from: u64, to: u64, extremes: bool, style: &Style, random: &mut Random) -> [u64; 7] {
    let length: f64 = random.pick(&[1.0, 10.0, 100.0, 200.0, 500.0]);
    let some = 0.1 + random.fraction();
    let ohms = style.ohms * random.pick(&[1.0, 1.0, 0.5, 2.0, some]);
    let mut per_km = held(PER_KM, ohms / length);
    let mut length = held(LENGTH, length);
    if extremes && random.below(2) == 0 {
        // No resistance at all, less than the least that counts, the most there is.
        (per_km, length) = random.pick(&[
            (0.0, length),
            (-0.0, length),
            (per_km, 0.0),
            (1e-12, 1.0),
            (1e-9, 1.0),
            (PER_KM.high, LENGTH.high),
        ]);
    }
    let doubles = [per_km, random.fraction(), random.fraction(), length];
    let mut cable = [random.below(LAST_NUMBER + 1), from, to, 0, 0, 0, 0];
    cable[3..].copy_from_slice(&doubles.map(f64::to_bits));
    cable
}

/// A cable of the most resistance, and after it one of none from its end to itself: adding and taking away its conductance may
/// lose the other's, and the voltages go where no cable's leads.
fn add_lost_conductance(cables: &mut Vec<[u64; 7]>, n: u64, random: &mut Random) {
    let station = 1 + random.below(n - 1);
    let mut weak = [0, 0, station, 0, 0, 0, 0];
    weak[3] = PER_KM.high.to_bits();
    weak[6] = (LENGTH.high * random.pick(&[1.0, 0.5, 0.1])).to_bits();
    let mut strong = [0, station, station, 0, 0, 0, 0];
    strong[3] = f64::to_bits(1e-9 * random.pick(&[0.0, 1.0, 1.5, 2.0]));
    strong[6] = 1f64.to_bits();
    if random.below(2) == 0 {
        cables.clear();
    }
    cables.splice(0..0, [weak, strong]);
}

/// Sets the second voltage beside half the first, where the mismatch is divided by nearly nothing, or by nothing.
fn near_half(plan: &mut Plan, random: &mut Random) {
    let half = f64::from_bits(plan.stations[0][3]) / 2.0;
    let kv = match random.below(3) {
        0 => half,
        1 => neighbour(half, random),
        _ => half * (1.0 + power_of_ten(-15.0, -1.0, random)),
    };
    plan.stations[1][3] = held(RATED_KV, kv).to_bits();
}

#[cfg(test)]
mod tests {
    use super::*;
    use crate::draw::each_accepted;
    use crate::tally::Flows;

    #[test]
    fn accepted_and_of_every_kind() {
        let mut met = Flows::default();
        each_accepted(5000, job, |job, answer| met.add(job, answer));
        for (name, count) in met.counted() {
            assert!(count > 0 || name == "a NaN or infinite voltage", "{name}");
        }
    }
}
