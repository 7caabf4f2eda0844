//! Flows that no rule refuses.

use crate::grids::{CABLES, STATIONS};
use crate::jobs::FLOW;
use crate::plan::{Plan, HYBRID_CONVERTER, LCC, MMC, TWO_LEVEL};
use crate::rules::{LAST_NUMBER, LENGTH, PER_KM, RATED_KV, RATED_MW};

pub fn flows(plans: &mut Vec<Plan>) {
    one_station(plans);
    two_stations(plans);
    least_divisor(plans);
    far_from_rated(plans);
    tolerance(plans);
    last_pass(plans);
    clamped(plans);
    mesh(plans);
    cables(plans);
    topologies(plans);
    full(plans);
}

pub type Station = [u64; 11];
type Cable = [u64; 7];

pub fn station(topology: u64, submodules: u64, kv: f64, mw: f64) -> Station {
    let doubles = [kv, mw, 0.15, 3.0, 15.0, 0.1, 50.0, 10_000.0].map(f64::to_bits);
    let mut station = [topology, submodules, 0, 0, 0, 0, 0, 0, 0, 0, 0];
    station[3..].copy_from_slice(&doubles);
    station
}

fn two_level(kv: f64, mw: f64) -> Station {
    station(TWO_LEVEL, 0, kv, mw)
}

/// A cable of one kilometre.
fn cable(from: u64, to: u64, ohms: f64) -> Cable {
    let [ohms, km] = [ohms, 1.0].map(f64::to_bits);
    [0, from, to, ohms, 0, 0, km]
}

/// A grid without breakers. The ids are not the positions, which alone count in a flow.
fn flow(stations: &[Station], cables: &[Cable]) -> Plan {
    let mut plan = Plan::small(FLOW);
    plan.counts = [stations.len() as u64, cables.len() as u64, 0];
    plan.stations = stations.to_vec();
    plan.cables = cables.to_vec();
    plan.breakers.clear();
    for (station, id) in plan.stations.iter_mut().zip(100..) {
        station[2] = id;
    }
    for (cable, id) in plan.cables.iter_mut().zip(200..) {
        cable[0] = id;
    }
    plan
}

/// Document 01's example, and a station with cables that lead nowhere.
fn one_station(plans: &mut Vec<Plan>) {
    for topology in [LCC, TWO_LEVEL, MMC, HYBRID_CONVERTER] {
        plans.push(flow(&[station(topology, 4, 500.0, 1000.0)], &[]));
    }
    plans.push(flow(
        &[two_level(500.0, 1000.0)],
        &[
            cable(0, 0, 1.0),
            cable(0, 0, 0.1),
            cable(0, 1, 1.0),
            cable(LAST_NUMBER, 0, 1.0),
            cable(1, LAST_NUMBER, 1.0),
        ],
    ));
}

fn two_stations(plans: &mut Vec<Plan>) {
    for (first_kv, second_kv, mw, ohms) in [
        // At rest, and where the voltages differ.
        (100.0, 100.0, 0.0, 1.0),
        (100.0, 100.0, -0.0, 1.0),
        (100.0, 120.0, 0.0, 1.0),
        // Worked out by hand in the tests of the jobs.
        (100.0, 100.0, 1000.0, 1.0),
        (500.0, 500.0, 1000.0, 2.0),
        (500.0, 320.0, 1000.0, 2.0),
        // More than the cable carries, just more, and as much. Of the first, 0.8 times is not what dividing by 1.25 gives, and
        // each pass makes such a difference larger.
        (100.0, 100.0, 4999.9, 1.0),
        (320.0, 320.0, RATED_MW.high, 200.0),
        (100.0, 100.0, 3125.1, 1.0),
        (100.0, 100.0, 3125.0, 1.0),
        // The divisor is nothing, and nearly nothing.
        (100.0, 50.0, 1000.0, 1.0),
        (100.0, 50f64.next_up(), 1000.0, 1e-3),
        (100.0, 50f64.next_down(), 1000.0, 1e-3),
        (2000.0, 1000f64.next_up(), 0.0, 1e-9),
        // Below half the first, the voltage runs to the other solution.
        (100.0, 10.0, 100.0, 1.0),
        (100.0, 1.0, 1000.0, 1.0),
        // The ends of the ranges.
        (RATED_KV.low, RATED_KV.low, RATED_MW.high, 1.0),
        (RATED_KV.high, RATED_KV.high, RATED_MW.high, 1.0),
        (RATED_KV.low, RATED_KV.high, 0.0, 1.0),
        (RATED_KV.high, RATED_KV.low, RATED_MW.high, 0.0),
    ] {
        plans.push(flow(
            &[two_level(first_kv, 0.0), two_level(second_kv, mw)],
            &[cable(0, 1, ohms)],
        ));
    }
}

/// Beside half the first voltage, 70 doubles on the divisor is below 1e-12, which moves nothing, and 71 on it is above.
fn least_divisor(plans: &mut Vec<Plan>) {
    let half = 50f64.to_bits();
    for bits in [half - 71, half - 70, half + 70, half + 71] {
        let mut stations = [two_level(100.0, 0.0); 3];
        stations[1] = two_level(f64::from_bits(bits), 1000.0);
        let star = [cable(0, 1, 1.0), cable(0, 2, 1.0)];
        plans.push(flow(&stations[..2], &star[..1]));
        plans.push(flow(&stations, &star));
    }
}

/// The second station's own conductance is lost in that of a cable to itself, and the flow converges at 1.6e11 kV. With another
/// resistance it is rounded up, and the flow does not converge.
fn far_from_rated(plans: &mut Vec<Plan>) {
    for ohms in [1.3e-9, 1.5e-9] {
        for topology in [LCC, TWO_LEVEL] {
            let mut weak = cable(0, 1, PER_KM.high);
            weak[6] = LENGTH.high.to_bits();
            plans.push(flow(
                &[
                    station(topology, 0, RATED_KV.low, 0.0),
                    station(topology, 0, RATED_KV.low, RATED_MW.high),
                ],
                &[weak, cable(1, 1, ohms)],
            ));
        }
    }
}

/// Mismatches beside the tolerance: without a cable a mismatch stays as it is.
fn tolerance(plans: &mut Vec<Plan>) {
    let mut mw = (1e-6f64 / 0.8).next_down().next_down();
    for _ in 0..5 {
        plans.push(flow(&[two_level(100.0, 0.0), two_level(100.0, mw)], &[]));
        mw = mw.next_up();
    }
    for mw in [0.0, 1e-7, 1.0] {
        plans.push(flow(
            &[
                two_level(100.0, 0.0),
                two_level(100.0, 0.0),
                two_level(100.0, mw),
            ],
            &[cable(0, 1, 1.0)],
        ));
    }
}

/// Converged in pass 49, in the last pass, and not.
fn last_pass(plans: &mut Vec<Plan>) {
    for mw in [6100.0, 6300.0, 6400.0] {
        let stations = [two_level(500.0, mw); 3];
        plans.push(flow(&stations, &[cable(0, 1, 2.0), cable(1, 2, 4.0)]));
    }
}

/// Three stations and more, within their clamps and at both ends of them.
fn clamped(plans: &mut Vec<Plan>) {
    let ring = [cable(0, 1, 2.0), cable(1, 2, 2.0), cable(2, 0, 2.0)];
    let path = [cable(0, 1, 2.0), cable(1, 2, 4.0)];
    for (kv, mw) in [
        ([100.0, 100.0, 100.0], [0.0, 0.0, 0.0]),
        ([500.0, 500.0, 500.0], [0.0, 100.0, 200.0]),
        ([500.0, 500.0, 500.0], [9000.0, 1000.0, 1000.0]),
        ([500.0, 480.0, 520.0], [0.0, 500.0, 300.0]),
        // Below, above, and both.
        ([100.0, 100.0, 100.0], [0.0, RATED_MW.high, RATED_MW.high]),
        ([500.0, 100.0, 100.0], [0.0, 10.0, 10.0]),
        ([500.0, 100.0, 2000.0], [0.0, 10.0, 10.0]),
        ([500.0, 2000.0, 100.0], [0.0, 10.0, RATED_MW.high]),
        // The divisor is nothing in the first pass.
        ([100.0, 50.0, 100.0], [0.0, 10.0, 10.0]),
    ] {
        let stations = [0, 1, 2].map(|i| two_level(kv[i], mw[i]));
        plans.push(flow(&stations, &ring));
        plans.push(flow(&stations, &path));
    }
    // A star of four, in which each station has its own way.
    let stations = [
        two_level(500.0, 0.0),
        two_level(500.0, 1000.0),
        two_level(320.0, 1000.0),
        two_level(1500.0, 10.0),
    ];
    let star = [cable(0, 1, 2.0), cable(2, 0, 2.0), cable(0, 3, 2.0)];
    plans.push(flow(&stations, &star));
}

/// Every two of five stations joined, each by another resistance, so that the order of every sum counts.
fn mesh(plans: &mut Vec<Plan>) {
    let even = [500.0, 400.0, 600.0, 450.0, 550.0];
    let uneven = [500.0, 333.3, 700.7, 444.4, 555.5];
    for (kv, mw, part) in [
        (even, 0.0, 1.0),
        (even, 1000.0, 10.0),
        (even, 5000.0, 10.0),
        (even, RATED_MW.high, 10.0),
        (uneven, 5000.0, 10.0),
    ] {
        let stations = kv.map(|kv| two_level(kv, mw));
        let pairs = (0..5).flat_map(|a| (a + 1..5).map(move |b| (a, b)));
        let ohms = [2.0, 3.0, 5.0, 7.0, 11.0, 13.0, 17.0, 19.0, 23.0, 29.0];
        let cables: Vec<Cable> = pairs
            .zip(ohms)
            .map(|((a, b), ohms)| cable(a, b, ohms * part))
            .collect();
        plans.push(flow(&stations, &cables));
    }
}

/// Cables to a station itself, between the same two, past the count, and of the least resistance.
fn cables(plans: &mut Vec<Plan>) {
    let two = [two_level(500.0, 0.0), two_level(500.0, 1000.0)];
    let three = [two[0], two[1], two_level(490.0, 500.0)];
    let joined = [cable(0, 1, 2.0), cable(1, 2, 3.0), cable(0, 2, 7.0)];
    let others: [&[Cable]; 10] = [
        &[cable(1, 1, 0.7)],
        &[cable(1, 1, 0.1), cable(2, 2, 0.3), cable(0, 0, 0.9)],
        // The sums of their conductances are rounded, so that their order counts.
        &[cable(0, 1, 0.1), cable(1, 0, 0.3), cable(0, 1, 0.7)],
        &[cable(0, 1, 0.7), cable(1, 0, 0.3), cable(0, 1, 0.1)],
        // The end of such a cable is cut to the last station for its loss.
        &[cable(0, 3, 1.0)],
        &[cable(LAST_NUMBER, 1, 1.0)],
        &[cable(3, 4, 1.0), cable(LAST_NUMBER, 3, 1.0)],
        &[cable(2, 3, 1.0), cable(3, 2, 1.0)],
        &[cable(0, 1, 0.0)],
        &[cable(1, 2, 1e-9), cable(0, 2, 1e-9f64.next_down())],
    ];
    for other in others {
        // Before the others and behind them. Of two stations the third's cables are past the count.
        plans.push(flow(&three, &[other, &joined].concat()));
        plans.push(flow(&three, &[&joined, other].concat()));
        plans.push(flow(&two, &[&joined[..1], other].concat()));
    }
    let mut no_length = cable(0, 1, 1.0);
    no_length[6] = 0;
    plans.push(flow(&two, &[no_length]));
    // Other fields of a cable, which a flow does not look at, and no cable at all.
    let mut cable = cable(0, 1, 2.0);
    cable[4..6].copy_from_slice(&[PER_KM.high.to_bits(), PER_KM.high.to_bits()]);
    plans.push(flow(&two, &[cable]));
    plans.push(flow(&two, &[]));
    plans.push(flow(&three, &[]));
}

/// Every topology in every place, with submodules at the ends of their range, and angles and powers at theirs.
fn topologies(plans: &mut Vec<Plan>) {
    let all = [
        (LCC, 0),
        (TWO_LEVEL, LAST_NUMBER),
        (MMC, 0),
        (MMC, 1),
        (MMC, 4),
        (MMC, LAST_NUMBER),
        (HYBRID_CONVERTER, 1),
    ];
    for mw in [0.0, 1e-6, 100.0, RATED_MW.high] {
        let stations: Vec<Station> = all
            .into_iter()
            .map(|(topology, submodules)| station(topology, submodules, 500.0, mw))
            .collect();
        let star: Vec<Cable> = (1..7).map(|i| cable(0, i, 2.0)).collect();
        plans.push(flow(&stations, &star));
    }
    for degrees in [0.0f64, 60.0, 90.0, 120.0, 180.0] {
        let mut stations = [station(LCC, 0, 500.0, 1000.0); 2];
        stations[0][7] = degrees.to_bits();
        stations[1][7] = (180.0 - degrees).to_bits();
        plans.push(flow(&stations, &[cable(0, 1, 2.0)]));
    }
}

/// As many stations and cables as there is room for: one grid that converges, one that does not, one that is clamped.
fn full(plans: &mut Vec<Plan>) {
    for (mw, ohms) in [(1.0, 2.0), (1000.0, 2.0), (RATED_MW.high, 200.0)] {
        let stations: Vec<Station> = (0..STATIONS)
            .map(|i| station(i % 4, i, 500.0, mw))
            .collect();
        // A wheel, with a cable to itself and one past the count.
        let spokes = (1..STATIONS).map(|i| cable(0, i, ohms));
        let rim = (1..STATIONS).map(|i| cable(i, i % (STATIONS - 1) + 1, 3.0 * ohms));
        let others = [cable(5, 5, ohms), cable(7, STATIONS, ohms)];
        let cables: Vec<Cable> = spokes.chain(rim).chain(others).collect();
        assert_eq!(cables.len() as u64, CABLES);
        plans.push(flow(&stations, &cables));
    }
}
