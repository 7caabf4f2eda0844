//! The rules 1 to 10 of document 01, and which of them each study checks. Written from 01's table and list, and from nothing else; the
//! flow that rule 10 asks for is the published one.

use crate::dc_switching::{
    ConverterStation, ConverterTopology, DcBreaker, DcBreakerType, DcCable, DcFaultEvent,
};
use crate::grids::{Grid, SweepOrder};
use crate::jobs::{
    has_fault, DETECTION, FAULT_RUN, FLOW, KEPT_SWEEP, KEPT_SWITCHING_RUN, LCC_POINT, SWEEP,
    SWITCHING_RUN, VSC_POINT,
};

/// Accepted values, ends included.
#[derive(Clone, Copy)]
pub struct Range {
    pub low: f64,
    pub high: f64,
}

impl Range {
    /// A NaN is outside every range.
    fn has(self, x: f64) -> bool {
        x >= self.low && x <= self.high
    }
}

const fn range(low: f64, high: f64) -> Range {
    Range { low, high }
}

// Station.
pub const RATED_KV: Range = range(1.0, 2_000.0);
pub const RATED_MW: Range = range(0.0, 20_000.0);
pub const TRANSFORMER_REACTANCE: Range = range(0.0, 1_000.0);
pub const SCR: Range = range(0.0, 1_000.0);
pub const CONTROL_ANGLE: Range = range(0.0, 180.0);
pub const COMMUTATION_REACTANCE: Range = range(0.0, 10.0);
pub const ARM_INDUCTANCE: Range = range(0.0, 1_000.0);
pub const SUBMODULE_CAPACITANCE: Range = range(0.0, 100_000.0);
// Cable.
pub const PER_KM: Range = range(0.0, 1_000.0);
pub const LENGTH: Range = range(0.0, 10_000.0);
// Breaker.
pub const BREAKER_TIME: Range = range(0.0, 100_000.0);
pub const ON_STATE_LOSS: Range = range(0.0, 100.0);
pub const BREAKING_CURRENT: Range = range(0.0, 1_000.0);
pub const ENERGY: Range = range(0.0, 100_000.0);
// Fault and sweep order.
pub const RESISTANCE: Range = range(0.0, 1_000_000.0);
pub const FRACTION: Range = range(0.0, 1.0);
pub const INCEPTION: Range = range(0.0, 100_000.0);
// Time.
pub const TIME_STEP: Range = range(0.0, 1_000_000.0);
pub const DURATION: Range = range(0.0, 100_000.0);

/// The highest id, station or cable number and number of submodules. The lowest is 0.
pub const LAST_NUMBER: u64 = 65_535;
pub const LAST_TENTH: u64 = 10;
pub const MOST_STEPS: f64 = 1_000_000.0;

/// All of them in the order in which they are checked; the first that applies is returned.
const ORDER: [u64; 10] = [3, 1, 2, 4, 5, 6, 7, 8, 9, 10];

/// The rules that the study of a job checks, first to last. A kept sweep is not refused by 10.
pub fn checked(job: u64) -> Vec<u64> {
    match job {
        FLOW => less(&[2, 4, 5, 9, 10]),
        LCC_POINT | VSC_POINT => vec![6],
        SWEEP => less(&[]),
        KEPT_SWEEP => less(&[10]),
        _ if has_fault(job) => less(&[10]),
        SWITCHING_RUN | KEPT_SWITCHING_RUN => less(&[2, 9, 10]),
        DETECTION => vec![3, 1, 6, 7, 8],
        _ => panic!("job {job} checks no rule"),
    }
}

fn less(skipped: &[u64]) -> Vec<u64> {
    let mut rules = ORDER.to_vec();
    rules.retain(|rule| !skipped.contains(rule));
    rules
}

pub fn operating_point(station: &ConverterStation) -> u64 {
    first(LCC_POINT, |_| station_outside(station))
}

pub fn flow(g: &Grid) -> u64 {
    first(FLOW, |rule| applies(rule, g))
}

pub fn switching(g: &Grid) -> u64 {
    first(SWITCHING_RUN, |rule| applies(rule, g))
}

pub fn detection(g: &Grid) -> u64 {
    first(DETECTION, |rule| applies(rule, g))
}

pub fn fault(g: &Grid, f: &DcFaultEvent) -> u64 {
    first(FAULT_RUN, |rule| match rule {
        9 => rule_9_of_fault(f),
        _ => applies(rule, g),
    })
}

pub fn sweep(g: &Grid, o: &SweepOrder) -> u64 {
    sweep_of(SWEEP, g, o)
}

pub fn kept_sweep(g: &Grid, o: &SweepOrder) -> u64 {
    sweep_of(KEPT_SWEEP, g, o)
}

fn sweep_of(job: u64, g: &Grid, o: &SweepOrder) -> u64 {
    first(job, |rule| match rule {
        9 => rule_9_of_order(o),
        _ => applies(rule, g),
    })
}

/// The first rule that applies, or 0.
fn first(job: u64, applies: impl Fn(u64) -> bool) -> u64 {
    checked(job)
        .into_iter()
        .find(|&rule| applies(rule))
        .unwrap_or(0)
}

/// Whether a rule on grids alone applies.
pub(crate) fn applies(rule: u64, g: &Grid) -> bool {
    match rule {
        1 => rule_1(g),
        2 => rule_2(g),
        3 => rule_3(g),
        4 => rule_4(g),
        5 => rule_5(g),
        6 => rule_6(g),
        7 => rule_7(g),
        8 => rule_8(g),
        10 => rule_10(g),
        _ => panic!("rule {rule} is none on grids"),
    }
}

/// No station.
fn rule_1(g: &Grid) -> bool {
    g.n_stations == 0
}

/// No cable.
fn rule_2(g: &Grid) -> bool {
    g.n_cables == 0
}

/// More than 32 stations, 64 cables or 32 breakers.
fn rule_3(g: &Grid) -> bool {
    g.n_stations > 32 || g.n_cables > 64 || g.n_breakers > 32
}

/// Time step or duration outside its range, as they were given.
fn rule_4(g: &Grid) -> bool {
    !(TIME_STEP.has(g.dt_us) && DURATION.has(g.duration_ms))
}

/// More than 1,000,000 steps, by the raised times. Rule 4 comes before it in every study that checks it.
fn rule_5(g: &Grid) -> bool {
    let dt_ms = g.simulator.dt_us / 1000.0;
    (g.simulator.duration_ms / dt_ms).ceil() > MOST_STEPS
}

/// A field of a station outside its range.
fn rule_6(g: &Grid) -> bool {
    g.simulator.stations.iter().any(station_outside)
}

/// A field of a cable outside its range.
fn rule_7(g: &Grid) -> bool {
    g.simulator.cables.iter().any(cable_outside)
}

/// A field of a breaker outside its range.
fn rule_8(g: &Grid) -> bool {
    g.simulator.breakers.iter().any(breaker_outside)
}

/// The flow has not converged. Rule 1 comes before it.
fn rule_10(g: &Grid) -> bool {
    let solution = g.simulator.solve_dc_power_flow();
    !solution.expect("rule 1 has seen a station").converged
}

fn outside(numbers: &[usize], doubles: &[(f64, Range)]) -> bool {
    numbers.iter().any(|&n| n as u64 > LAST_NUMBER)
        || doubles.iter().any(|&(x, range)| !range.has(x))
}

pub(crate) fn station_outside(s: &ConverterStation) -> bool {
    let submodules = match s.topology {
        ConverterTopology::Mmc { n_submodules } => n_submodules,
        _ => 0,
    };
    outside(
        &[s.id, submodules],
        &[
            (s.v_dc_rated_kv, RATED_KV),
            (s.p_rated_mw, RATED_MW),
            (s.x_transformer_pu, TRANSFORMER_REACTANCE),
            (s.scr, SCR),
            (s.control_angle_deg, CONTROL_ANGLE),
            (s.x_commutation_pu, COMMUTATION_REACTANCE),
            (s.arm_inductance_mh, ARM_INDUCTANCE),
            (s.sm_capacitance_uf, SUBMODULE_CAPACITANCE),
        ],
    )
}

pub(crate) fn cable_outside(c: &DcCable) -> bool {
    outside(
        &[c.id, c.from_station, c.to_station],
        &[
            (c.r_per_km, PER_KM),
            (c.l_per_km, PER_KM),
            (c.c_per_km, PER_KM),
            (c.length_km, LENGTH),
        ],
    )
}

pub(crate) fn breaker_outside(b: &DcBreaker) -> bool {
    let own = match b.breaker_type {
        DcBreakerType::Mechanical { opening_time_ms } => vec![(opening_time_ms, BREAKER_TIME)],
        DcBreakerType::SolidState {
            turn_off_time_us,
            on_state_loss_pct,
        } => vec![
            (turn_off_time_us, BREAKER_TIME),
            (on_state_loss_pct, ON_STATE_LOSS),
        ],
        DcBreakerType::HybridBreaker {
            opening_time_ms,
            commutation_time_us,
        } => vec![
            (opening_time_ms, BREAKER_TIME),
            (commutation_time_us, BREAKER_TIME),
        ],
    };
    outside(&[b.id, b.station_id], &own)
        || outside(
            &[],
            &[
                (b.max_breaking_current_ka, BREAKING_CURRENT),
                (b.energy_absorption_mj, ENERGY),
            ],
        )
}

/// A field of a fault outside its range.
fn rule_9_of_fault(f: &DcFaultEvent) -> bool {
    outside(
        &[f.location_cable_id],
        &[
            (f.fault_resistance, RESISTANCE),
            (f.location_fraction, FRACTION),
            (f.inception_time_ms, INCEPTION),
        ],
    )
}

/// A field of a sweep order outside its range; for the tenths 0 ≤ low ≤ high ≤ 10.
pub(crate) fn rule_9_of_order(o: &SweepOrder) -> bool {
    outside(
        &[],
        &[
            (o.fault_resistance, RESISTANCE),
            (o.inception_time_ms, INCEPTION),
        ],
    ) || !(o.low_tenth <= o.high_tenth && o.high_tenth <= LAST_TENTH)
}

#[cfg(test)]
mod tests {
    use super::*;
    use crate::jobs::answer;
    use crate::plan::Plan;

    fn refusal(plan: &Plan) -> u64 {
        let mut output = Vec::new();
        answer(&mut plan.numbers().into_iter(), &mut output).expect("a whole job");
        output[0]
    }

    #[test]
    fn orders() {
        assert_eq!(checked(FLOW), [3, 1, 6, 7, 8]);
        assert_eq!(checked(DETECTION), [3, 1, 6, 7, 8]);
        assert_eq!(checked(SWITCHING_RUN), [3, 1, 4, 5, 6, 7, 8]);
        assert_eq!(checked(FAULT_RUN), [3, 1, 2, 4, 5, 6, 7, 8, 9]);
        assert_eq!(checked(SWEEP), [3, 1, 2, 4, 5, 6, 7, 8, 9, 10]);
        assert_eq!(checked(KEPT_SWEEP), [3, 1, 2, 4, 5, 6, 7, 8, 9]);
        assert_eq!(checked(LCC_POINT), [6]);
        assert_eq!(checked(VSC_POINT), [6]);
    }

    #[test]
    fn worked_examples() {
        for job in [FAULT_RUN, SWITCHING_RUN, SWEEP] {
            for (duration_ms, number) in [(1000.0, 0), (1001.0, 5)] {
                let mut plan = Plan::small(job);
                plan.times = [1.0, duration_ms].map(f64::to_bits);
                assert_eq!(refusal(&plan), number);
            }
        }
        for job in [
            FLOW,
            LCC_POINT,
            VSC_POINT,
            FAULT_RUN,
            SWITCHING_RUN,
            DETECTION,
            SWEEP,
        ] {
            for (kv, number) in [(1999.9, 0), (0.5, 6)] {
                let mut plan = Plan::small(job);
                plan.stations[0][3] = f64::to_bits(kv);
                assert_eq!(refusal(&plan), number);
            }
        }
    }

    #[test]
    fn times_as_given_are_checked_and_raised_ones_counted() {
        for (dt_us, duration_ms, number) in [
            (0.0, 0.0, 0),
            (-0.0, -0.0, 0),
            (0.0, 100.0, 0),
            (0.0, 100.1, 5),
            (0f64.next_down(), 1.0, 4),
            (1.0, 0f64.next_down(), 4),
            (1e6, 1e5, 0),
            (1e6f64.next_up(), 1.0, 4),
            (1.0, 1e5f64.next_up(), 4),
            (f64::NAN, 1.0, 4),
            (1.0, f64::NAN, 4),
            (f64::INFINITY, f64::INFINITY, 4),
        ] {
            let mut plan = Plan::small(SWITCHING_RUN);
            plan.times = [dt_us, duration_ms].map(f64::to_bits);
            assert_eq!(refusal(&plan), number, "{dt_us} {duration_ms}");
        }
    }
}
