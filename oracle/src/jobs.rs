//! The jobs of the replay bench, answered by the published Rust and by document 01's rules.

pub mod runs;
pub mod sweeps;
mod transients;

use crate::dc_switching::{
    clearing_time_ms, fastest_clearing_ms, record_interval, recorded_steps, time_step_ms,
    total_steps, ConverterOperatingPoint, DcSwitchingSimulator,
};
use crate::decimals;
use crate::grids::{self, Grid, BREAKERS, CABLES, STATIONS};
use crate::numbers::{bits, double};
use crate::rules;
use crate::stand_in::StandIn;

pub const FLOW: u64 = 1;
pub const LCC_POINT: u64 = 2;
pub const VSC_POINT: u64 = 3;
pub const FAULT_RUN: u64 = 4;
pub const SWITCHING_RUN: u64 = 5;
pub const DETECTION: u64 = 6;
pub const SWEEP: u64 = 7;
pub const FLOATS: u64 = 8;
pub const KEPT_FAULT_RUN: u64 = 9;
pub const KEPT_SWITCHING_RUN: u64 = 10;
pub const KEPT_SWEEP: u64 = 11;
/// The one job on a grid that refuses none.
pub const TIMES: u64 = 12;
// What a fault run is made of, refused as one.
pub const STEP: u64 = 13;
pub const CIRCUIT: u64 = 14;
/// A fault run on a grid whose time step and duration are set directly, past `new`.
pub const TIMED_FAULT_RUN: u64 = 15;
/// A double as the program `sweep` prints it.
pub const PRINTED: u64 = 16;

/// The jobs on a grid or a part of one.
pub const GRID_JOBS: [(u64, &str); 14] = [
    (FLOW, "flow"),
    (LCC_POINT, "LCC point"),
    (VSC_POINT, "VSC point"),
    (FAULT_RUN, "fault run"),
    (SWITCHING_RUN, "switching run"),
    (DETECTION, "detection"),
    (SWEEP, "sweep"),
    (KEPT_FAULT_RUN, "kept fault run"),
    (KEPT_SWITCHING_RUN, "kept switching run"),
    (KEPT_SWEEP, "kept sweep"),
    (TIMES, "times"),
    (STEP, "RK4 step"),
    (CIRCUIT, "fault circuit"),
    (TIMED_FAULT_RUN, "fault run at set times"),
];

/// Whether a job has a grid: neither float operations and printed values nor points.
pub fn has_grid(job: u64) -> bool {
    !matches!(job, FLOATS | PRINTED) && !is_point(job)
}

/// Whether a job is an operating point, which has a station and no grid.
pub fn is_point(job: u64) -> bool {
    matches!(job, LCC_POINT | VSC_POINT)
}

/// Whether a job has a fault.
pub fn has_fault(job: u64) -> bool {
    matches!(
        job,
        FAULT_RUN | KEPT_FAULT_RUN | STEP | CIRCUIT | TIMED_FAULT_RUN
    )
}

/// Whether a job has a sweep order.
pub fn has_order(job: u64) -> bool {
    matches!(job, SWEEP | KEPT_SWEEP)
}

/// How many numbers of an answer stand before the refusal.
pub fn before_refusal(job: u64) -> usize {
    if job == TIMED_FAULT_RUN {
        RUN_TIMES
    } else {
        0
    }
}

/// Whether a job is a kept run or sweep, whose answer is a stop, or 11 for all that refuses it.
pub fn is_kept(job: u64) -> bool {
    matches!(job, KEPT_FAULT_RUN | KEPT_SWITCHING_RUN | KEPT_SWEEP)
}

/// Answers the next job, or nothing more where the input ends, inside the job too, or no such job is known.
pub fn answer(input: &mut impl Iterator<Item = u64>, output: &mut Vec<u64>) -> Option<()> {
    match input.next()? {
        FLOW => flow(input, output)?,
        LCC_POINT => lcc_point(input, output)?,
        VSC_POINT => vsc_point(input, output)?,
        job @ (FAULT_RUN | TIMED_FAULT_RUN) => runs::fault_run(job, input, output)?,
        SWITCHING_RUN => runs::switching_run(input, output)?,
        DETECTION => transients::detection(input, output)?,
        SWEEP => sweeps::sweep(input, output)?,
        FLOATS => floats(input, output)?,
        KEPT_FAULT_RUN => output.push(runs::kept_fault_run(input)?),
        KEPT_SWITCHING_RUN => output.push(runs::kept_switching_run(input)?),
        KEPT_SWEEP => output.push(sweeps::kept_sweep(input)?),
        TIMES => times(&grids::grid(input)?, output),
        STEP => transients::step(input, output)?,
        CIRCUIT => transients::circuit(input, output)?,
        PRINTED => printed(input, output)?,
        _ => return None,
    }
    Some(())
}

// The studies that are answered whole: 0 and the result, or the number of the rule alone. What no rule refuses never stops the
// Rust: its clamps have whole numbers or parts of an accepted voltage as ends.

fn flow(input: &mut impl Iterator<Item = u64>, output: &mut Vec<u64>) -> Option<()> {
    let grid = grids::grid(input)?;
    let refusal = rules::flow(&grid);
    output.push(refusal);
    if refusal == 0 {
        let solution = grid
            .simulator
            .solve_dc_power_flow()
            .expect("rule 1 has seen a station");
        output.extend([
            solution.converged as u64,
            solution.iterations as u64,
            bits(solution.total_losses_mw),
        ]);
        for point in &solution.operating_points {
            output.extend(point_numbers(point));
        }
        output.extend(solution.cable_losses_mw.into_iter().map(bits));
    }
    Some(())
}

fn lcc_point(input: &mut impl Iterator<Item = u64>, output: &mut Vec<u64>) -> Option<()> {
    let station = grids::station(input)?;
    let i_dc_ka = double(input.next()?);
    let refusal = rules::operating_point(&station);
    output.push(refusal);
    if refusal == 0 {
        output.extend(point_numbers(
            &no_grid().lcc_operating_point(&station, i_dc_ka),
        ));
    }
    Some(())
}

fn vsc_point(input: &mut impl Iterator<Item = u64>, output: &mut Vec<u64>) -> Option<()> {
    let station = grids::station(input)?;
    let p_mw = double(input.next()?);
    let v_dc_kv = double(input.next()?);
    let refusal = rules::operating_point(&station);
    output.push(refusal);
    if refusal == 0 {
        output.extend(point_numbers(
            &no_grid().vsc_operating_point(&station, p_mw, v_dc_kv),
        ));
    }
    Some(())
}

/// The Rust's operating points are methods of a grid, and look at nothing of it.
fn no_grid() -> DcSwitchingSimulator {
    DcSwitchingSimulator::new(1.0, 1.0)
}

/// How many numbers an operating point has.
pub const POINT: usize = 7;

fn point_numbers(point: &ConverterOperatingPoint) -> [u64; POINT] {
    [
        point.station_id as u64,
        bits(point.p_dc_mw),
        bits(point.v_dc_kv),
        bits(point.i_dc_ka),
        bits(point.firing_angle_deg),
        bits(point.power_factor),
        bits(point.losses_mw),
    ]
}

/// Time and fault current, two numbers of each station, one of each cable and breaker; counts are cut to the room that there is.
fn record_length(g: &Grid) -> u64 {
    2 + 2 * g.n_stations.min(STATIONS) + g.n_cables.min(CABLES) + g.n_breakers.min(BREAKERS)
}

/// What a grid says of times: the steps, counted to one past the limit, the recording interval, the recorded steps, the length
/// of a record, time step and duration in milliseconds, the fastest clearing time, and each breaker's.
fn times(g: &Grid, output: &mut Vec<u64>) {
    let simulator = &g.simulator;
    let [steps, interval, recorded, dt_ms, duration_ms] = run_times(simulator);
    output.extend([steps, interval, recorded, record_length(g)]);
    output.extend([dt_ms, duration_ms, bits(fastest_clearing_ms(simulator))]);
    output.extend(simulator.breakers.iter().map(|b| bits(clearing_time_ms(b))));
}

/// How many numbers the times of a run are.
const RUN_TIMES: usize = 5;

/// The steps, counted to one past the limit, the recording interval, the recorded steps; time step and duration in milliseconds.
fn run_times(simulator: &DcSwitchingSimulator) -> [u64; RUN_TIMES] {
    let steps = total_steps(simulator).min(rules::MOST_STEPS as usize + 1);
    [
        steps as u64,
        record_interval(steps) as u64,
        recorded_steps(steps) as u64,
        bits(time_step_ms(simulator)),
        bits(simulator.duration_ms),
    ]
}

/// The operations of job 8, by their numbers.
pub const OPERATIONS: [&str; 6] = ["sqrt", "E", "S", "C", "max", "min"];

fn floats(input: &mut impl Iterator<Item = u64>, output: &mut Vec<u64>) -> Option<()> {
    let operation = input.next()?;
    let a = double(input.next()?);
    let b = double(input.next()?);
    let result = match operation {
        0 => a.sqrt(),
        1 => a.stand_in_exp(),
        2 => a.stand_in_sin(),
        3 => a.stand_in_cos(),
        4 => a.max(b),
        5 => a.min(b),
        _ => return None,
    };
    output.push(bits(result));
    Some(())
}

/// How many bytes of a column a number of job 16's answer has, the first of them the highest.
pub const PRINTED_BYTES: usize = 7;

fn printed(input: &mut impl Iterator<Item = u64>, output: &mut Vec<u64>) -> Option<()> {
    let column = decimals::column(double(input.next()?));
    let parts = column.chunks_exact(PRINTED_BYTES);
    output.extend(parts.map(|part| part.iter().fold(0, |n, &b| n << 8 | u64::from(b))));
    Some(())
}

#[cfg(test)]
mod tests {
    use super::*;
    use crate::dc_switching::{DcFaultEvent, DcFaultType};
    use crate::numbers::NAN;
    use crate::plan::{Plan, HYBRID_CONVERTER, LCC, MMC, TWO_LEVEL};
    use crate::sample;

    fn answered(numbers: &[u64]) -> Option<Vec<u64>> {
        let mut output = Vec::new();
        answer(&mut numbers.iter().copied(), &mut output).map(|()| output)
    }

    /// Steps and records of the published runs: dt, duration, steps, recorded steps.
    #[test]
    fn steps_of_the_published_runs() {
        let fault = DcFaultEvent {
            fault_type: DcFaultType::PoleToPole,
            location_cable_id: 0,
            location_fraction: 0.5,
            fault_resistance: 1.0,
            inception_time_ms: 0.0,
        };
        for (dt_us, duration_ms, steps, records) in [
            (1000.0, 1.0, 1, 1),
            (300.0, 1.0, 4, 4),
            (1000.0, 4999.0, 4999, 4999),
            (1000.0, 5000.0, 5000, 5000),
            (1000.0, 9999.0, 9999, 9999),
            (10.0, 100.0, 10_000, 5001),
            (1000.0, 10_001.0, 10_001, 5001),
            (1000.0, 10_002.0, 10_002, 5002),
            (1000.0, 15_001.0, 15_001, 5001),
        ] {
            let mut plan = Plan::small(TIMES);
            plan.times = [f64::to_bits(dt_us), f64::to_bits(duration_ms)];
            let simulator = grids::grid(&mut plan.numbers().into_iter().skip(1))
                .unwrap()
                .simulator;
            assert_eq!(total_steps(&simulator), steps);
            assert_eq!(recorded_steps(steps), records);
            for run in [
                simulator.simulate_switching(0, true),
                simulator.simulate_fault(&fault),
            ] {
                let states = run.unwrap().states;
                assert_eq!(states.len(), records);
                let last = (steps - 1) as f64 * time_step_ms(&simulator);
                assert_eq!(states[records - 1].time_ms, last);
            }
        }
    }

    #[test]
    fn times_of_a_grid() {
        let mut plan = Plan::small(TIMES);
        plan.times = [10f64.to_bits(), 100f64.to_bits()];
        plan.breakers[0][2..5].copy_from_slice(&[2, 10f64.to_bits(), 2000f64.to_bits()]);
        let [dt, duration, clearing] = [0.01, 100.0, 5.0].map(f64::to_bits);
        assert_eq!(
            answered(&plan.numbers()).unwrap(),
            [10_000, 2, 5001, 6, dt, duration, clearing, clearing]
        );
    }

    /// A station of 100 kV and 1,000 MW, without angle and reactances.
    fn station(topology: u64, submodules: u64) -> [u64; 11] {
        let mut station = [topology, submodules, 7, 0, 0, 0, 0, 0, 0, 0, 0];
        station[3..5].copy_from_slice(&[100f64, 1000.0].map(f64::to_bits));
        station
    }

    /// The answer, of which the first numbers are whole ones, and the rest doubles.
    fn parted(plan: &Plan, whole: usize) -> (Vec<u64>, Vec<f64>) {
        let answer = answered(&plan.numbers()).unwrap();
        let doubles = answer[whole..].iter().map(|&x| double(x)).collect();
        (answer[..whole].to_vec(), doubles)
    }

    fn assert_near(given: &[f64], expected: &[f64]) {
        assert_eq!(given.len(), expected.len());
        for (x, y) in given.iter().zip(expected) {
            assert!((x - y).abs() <= 1e-12 * y.abs(), "{given:?} {expected:?}");
        }
    }

    /// One station, no cable: converged in pass 1.
    #[test]
    fn flow_of_one_station() {
        let mut plan = Plan::small(FLOW);
        plan.counts = [1, 0, 0];
        plan.stations = vec![station(TWO_LEVEL, 0)];
        plan.cables.clear();
        plan.breakers.clear();
        let (whole, doubles) = parted(&plan, 3);
        assert_eq!(whole, [0, 1, 1]);
        // Total loss, id, P, V, I, angle, power factor, losses: 0.5 percent of the power.
        let degrees = 180.0 / std::f64::consts::PI;
        let id = f64::from_bits(7);
        assert_near(&doubles, &[5.0, id, 0.0, 100.0, 0.0, degrees, 1.0, 5.0]);
    }

    /// Two stations of 100 kV and a cable of 1 ohm, through which the second takes 800 MW: v² - 100 v + 800 = 0. From 100 the
    /// voltage goes to 92, 91.238, and nearer than 1e-6 in the third step; by then the mismatch is still above 1e-6.
    #[test]
    fn flow_of_two_stations() {
        let mut plan = Plan::small(FLOW);
        plan.counts = [2, 1, 0];
        plan.stations = vec![station(TWO_LEVEL, 0); 2];
        plan.cables = vec![[0, 0, 1, 1f64.to_bits(), 0, 0, 1f64.to_bits()]];
        plan.breakers.clear();
        let (whole, doubles) = parted(&plan, 3);
        assert_eq!(whole, [0, 1, 5]);
        let v = 50.0 + 1700f64.sqrt();
        let i = 100.0 - v;
        // No-load, by current and by its square, at a rated current of 10 kA.
        let losses = [5.0 + 0.1 * i + 0.05 * i * i, 5.0 + 0.1 * i + 0.05 * i * i];
        let total = i * i + losses[0] + losses[1];
        let degrees = 180.0 / std::f64::consts::PI;
        let id = f64::from_bits(7);
        let first = [id, 100.0 * i, 100.0, i, degrees, 1.0, losses[0]];
        let second = [id, -800.0, v, -i, degrees, 1.0, losses[1]];
        let expected = [&[total][..], &first, &second, &[i * i]].concat();
        assert_near(&doubles, &expected);
    }

    /// Without angle and reactance the voltage is the rated one; 0.7 percent of the power is lost, and 0.001 of the base
    /// impedance, 10 ohms, at 2 kA.
    #[test]
    fn lcc_point_by_hand() {
        let mut plan = Plan::small(LCC_POINT);
        plan.stations = vec![station(LCC, 0)];
        plan.rest = vec![2f64.to_bits()];
        let (whole, doubles) = parted(&plan, 2);
        assert_eq!(whole, [0, 7]);
        assert_near(&doubles, &[200.0, 100.0, 2.0, 0.0, 1.0, 7.04]);
        // At 1 pu of reactance the drop is 3/PI of 10 ohms at 2 kA, and the overlap 0.4.
        plan.stations[0][8] = 1f64.to_bits();
        let (_, doubles) = parted(&plan, 2);
        let pi = std::f64::consts::PI;
        let v = 100.0 - 60.0 / pi;
        let overlap = 2.0 * 2.0 / 1000.0 * 100.0;
        assert_near(&doubles, &[2.0 * v, v, 2.0, 0.0, 1.0 - overlap / 2.0, 7.04]);
        // A NaN reaches all but the angle and the power factor, whose overlap is then the longest.
        plan.rest = vec![u64::MAX];
        let answer = answered(&plan.numbers()).unwrap();
        assert_eq!(answer[2..6], [NAN, NAN, NAN, 0]);
        assert_near(&[double(answer[6])], &[1.0 - pi / 8.0]);
        assert_eq!(answer[7], NAN);
    }

    /// 200 MW at 100 kV, a fifth of the rated current: 5 + 0.2 + 0.2 MW, less for some topologies.
    #[test]
    fn vsc_point_by_hand() {
        for (topology, submodules, part) in [
            (LCC, 0, 0.6),
            (TWO_LEVEL, 0, 1.0),
            (MMC, 0, 1.0),
            (MMC, 1, 1.0),
            (MMC, 4, 0.75),
            (HYBRID_CONVERTER, 0, 0.8),
        ] {
            let mut plan = Plan::small(VSC_POINT);
            plan.stations = vec![station(topology, submodules)];
            plan.rest = [200f64, 100.0].map(f64::to_bits).to_vec();
            let (whole, doubles) = parted(&plan, 2);
            assert_eq!(whole, [0, 7]);
            let degrees = 180.0 / std::f64::consts::PI;
            assert_near(&doubles, &[200.0, 100.0, 2.0, degrees, 1.0, 5.4 * part]);
        }
    }

    #[test]
    fn bytes_of_a_printed_value() {
        let answer = |x: f64| answered(&[PRINTED, x.to_bits()]).unwrap();
        let bytes = |parts: [&[u8; 7]; 3]| {
            parts.map(|part| part.iter().fold(0, |n, &b| 256 * n + u64::from(b)))
        };
        let parts = [b"       ", b"    -12", b".750000"];
        assert_eq!(answer(-12.75), bytes(parts));
        assert_eq!(answer(f64::INFINITY), bytes([b"*******"; 3]));
    }

    #[test]
    fn answers_of_their_length() {
        for job in sample::jobs() {
            let answer = answered(&job).unwrap();
            let accepted = match job[0] {
                FLOW => 4 + POINT as u64 * job[3] + job[4],
                number if is_point(number) => 1 + POINT as u64,
                DETECTION => 2,
                STEP => 1 + 2 * job[3] + job[4],
                CIRCUIT => 8,
                FAULT_RUN | SWITCHING_RUN | TIMED_FAULT_RUN => run_length(&job, &answer),
                SWEEP => sweep_length(&job, &answer),
                FLOATS => continue,
                PRINTED => 3,
                TIMES => 7 + job[5].min(BREAKERS),
                _ => 1,
            };
            let before = before_refusal(job[0]);
            let refuses = !matches!(job[0], TIMES | PRINTED) && !is_kept(job[0]);
            let refused = refuses && answer[before] != 0;
            let length = if refused { before as u64 + 1 } else { accepted };
            assert_eq!(answer.len() as u64, length, "{job:?}");
        }
    }

    /// By the records that the calls say they wrote.
    fn run_length(job: &[u64], answer: &[u64]) -> u64 {
        let input = &mut job[1..].iter().copied();
        let record = record_length(&grids::grid_of(job[0], input).unwrap());
        let event = if has_fault(job[0]) { 5 } else { 2 };
        let calls = runs::calls(&mut input.skip(event)).unwrap();
        let mut at = before_refusal(job[0]) as u64 + 1;
        for _ in calls {
            match answer.get(at as usize + 2) {
                Some(records) => at += 3 + record * records,
                None => return 0,
            }
        }
        at + 7
    }

    /// By the rows that the calls say they wrote.
    fn sweep_length(job: &[u64], answer: &[u64]) -> u64 {
        let input = &mut job[1..].iter().copied();
        let grid = grids::grid(input).unwrap();
        let calls = runs::calls(&mut input.skip(4)).unwrap();
        let mut at = 1;
        for _ in calls {
            match answer.get(at as usize + 2) {
                Some(rows) => at += 3 + sweeps::ROW * rows,
                None => return 0,
            }
        }
        at + 2 + sweeps::opened_length(&grid) as u64
    }

    #[test]
    fn no_answer_to_a_part_of_a_job() {
        for job in sample::jobs() {
            assert!(answered(&job).is_some());
            for end in 0..job.len() {
                assert!(answered(&job[..end]).is_none());
            }
        }
    }

    #[test]
    fn no_such_topology_kind_or_type() {
        let mut topology = Plan::small(FLOW);
        topology.stations[0][0] = 4;
        let mut kind = Plan::small(FLOW);
        kind.breakers[0][2] = 3;
        let faults = [FAULT_RUN, STEP, CIRCUIT, TIMED_FAULT_RUN].map(|job| {
            let mut plan = Plan::small(job);
            plan.event[0] = 3;
            plan
        });
        for plan in [topology, kind].into_iter().chain(faults) {
            assert!(answered(&plan.numbers()).is_none());
        }
    }
}
