//! Operating points of stations that are accepted, at doubles of every form.

use crate::jobs::{LCC_POINT, VSC_POINT};
use crate::numbers::NAN;
use crate::plan::{Plan, HYBRID_CONVERTER, LCC, MMC, TWO_LEVEL};
use crate::rules::{COMMUTATION_REACTANCE, LAST_NUMBER, RATED_KV, RATED_MW};

pub fn points(plans: &mut Vec<Plan>) {
    for job in [LCC_POINT, VSC_POINT] {
        stations(job, plans);
    }
    for current in forms() {
        plans.push(point(LCC_POINT, ordinary(), &[current]));
    }
    for power in forms() {
        for voltage in forms() {
            plans.push(point(VSC_POINT, ordinary(), &[power, voltage]));
        }
    }
    least_voltages(plans);
}

/// Doubles of every form: zeros, subnormals, common ones, the largest, infinities, a NaN.
fn forms() -> Vec<u64> {
    let doubles = [
        0.0,
        -0.0,
        f64::from_bits(1),
        1.0,
        -2.5,
        1000.0,
        1e200,
        f64::MAX,
        f64::INFINITY,
        f64::NEG_INFINITY,
    ];
    let mut bits = doubles.map(f64::to_bits).to_vec();
    // Any pattern of a NaN is a NaN.
    bits.extend([NAN, u64::MAX]);
    bits
}

fn point(job: u64, station: [u64; 11], rest: &[u64]) -> Plan {
    let mut plan = Plan::small(job);
    plan.stations = vec![station];
    plan.rest = rest.to_vec();
    plan
}

/// An MMC, with every field in use.
fn ordinary() -> [u64; 11] {
    let doubles = [500.0, 1000.0, 0.15, 3.0, 15.0, 0.1, 50.0, 10_000.0].map(f64::to_bits);
    let mut station = [MMC, 200, 7, 0, 0, 0, 0, 0, 0, 0, 0];
    station[3..].copy_from_slice(&doubles);
    station
}

/// Every topology in either point, submodules at the ends of their range, and the fields that the points look at.
fn stations(job: u64, plans: &mut Vec<Plan>) {
    let rest = match job {
        LCC_POINT => vec![2f64.to_bits()],
        _ => vec![900f64.to_bits(), 480f64.to_bits()],
    };
    for (topology, submodules) in [
        (LCC, 0),
        (TWO_LEVEL, u64::MAX),
        (MMC, 0),
        (MMC, 1),
        (MMC, 4),
        (MMC, LAST_NUMBER),
        (HYBRID_CONVERTER, 5),
    ] {
        let mut station = ordinary();
        station[..2].copy_from_slice(&[topology, submodules]);
        plans.push(point(job, station, &rest));
    }
    let columns: [(usize, &[f64]); 4] = [
        (3, &[RATED_KV.low, 333.3, RATED_KV.high]),
        (4, &[0.0, -0.0, 1e-9, 1e-6, 1e-3, 333.3, RATED_MW.high]),
        (
            7,
            &[0.0, 1.0, 30.0, 60.0, 89.0, 90.0, 91.0, 120.0, 179.0, 180.0],
        ),
        (8, &[0.0, 0.5, 2.0, COMMUTATION_REACTANCE.high]),
    ];
    for (column, values) in columns {
        for value in values {
            let mut station = ordinary();
            station[column] = value.to_bits();
            plans.push(point(job, station, &rest));
        }
    }
    // An overlap of the least and of the most, and a rated current below the least that is divided by.
    for (kv, mw, rest) in [(2000.0, 1e-3, 0.0), (1.0, 1.0, 1e6), (2000.0, 1e-4, 5.0)] {
        let mut station = ordinary();
        station[3..5].copy_from_slice(&[kv, mw].map(f64::to_bits));
        let rest = vec![f64::to_bits(rest); if job == LCC_POINT { 1 } else { 2 }];
        plans.push(point(job, station, &rest));
    }
}

/// Voltages beside the least one, and beside the one below which the modulation index is given.
fn least_voltages(plans: &mut Vec<Plan>) {
    for kv in [1e-6f64, 1.5f64.sqrt() * 1e-6] {
        for kv in [
            kv.next_down().next_down(),
            kv.next_down(),
            kv,
            kv.next_up(),
            kv.next_up().next_up(),
        ] {
            let rest = [3f64, kv].map(f64::to_bits);
            plans.push(point(VSC_POINT, ordinary(), &rest));
        }
    }
}
