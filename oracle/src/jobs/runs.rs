//! Fault runs and switching runs in portions, and kept runs.

use super::{record_length, run_times, TIMED_FAULT_RUN};
use crate::dc_switching::{record_interval, total_steps, DcTransientResult, DcTransientState};
use crate::grids::{self, Grid};
use crate::numbers::bits;
use crate::rules;

/// How an advance stops.
#[derive(Clone, Copy, PartialEq, Eq, Debug)]
pub enum Stop {
    Finished = 0,
    Spent = 1,
    Full = 2,
}

/// What is answered to a kept run that is refused.
pub const REFUSED: u64 = 11;

/// The most numbers of lent memory.
pub const MOST_SPACE: u64 = 4096;

/// An advance: a step allowance, and lent memory in numbers.
#[derive(Clone, Copy)]
pub struct Call {
    pub allowance: u64,
    pub space: u64,
}

/// The steps of a run that are made, counted without the run itself.
pub struct Steps {
    pub all: u64,
    pub interval: u64,
    /// The numbers of a record.
    pub record: u64,
    pub made: u64,
}

/// How a call ended, how many steps it made and how many records it wrote.
pub struct Portion {
    pub stop: Stop,
    pub steps: u64,
    pub records: u64,
}

impl Steps {
    /// Of a run on a grid that is accepted, before its first step.
    pub fn of(grid: &Grid) -> Steps {
        let all = total_steps(&grid.simulator);
        Steps {
            all: all as u64,
            interval: record_interval(all) as u64,
            record: record_length(grid),
            made: 0,
        }
    }

    pub fn is_recorded(&self, step: u64) -> bool {
        step.is_multiple_of(self.interval) || step == self.all - 1
    }

    /// Finished when no step is left; else spent when the allowance is made; else full, before a step that is recorded if no whole
    /// record fits.
    pub fn advance(&mut self, call: Call) -> Portion {
        let room = call.space.min(MOST_SPACE) / self.record;
        let mut steps = 0;
        let mut records = 0;
        let stop = loop {
            if self.made == self.all {
                break Stop::Finished;
            }
            if steps == call.allowance {
                break Stop::Spent;
            }
            if self.is_recorded(self.made) {
                if records == room {
                    break Stop::Full;
                }
                records += 1;
            }
            self.made += 1;
            steps += 1;
        };
        Portion {
            stop,
            steps,
            records,
        }
    }
}

/// At times that are set directly, the answer begins with them.
pub fn fault_run(
    job: u64,
    input: &mut impl Iterator<Item = u64>,
    output: &mut Vec<u64>,
) -> Option<()> {
    let grid = grids::grid_of(job, input)?;
    let fault = grids::fault(input)?;
    let calls = calls(input)?;
    if job == TIMED_FAULT_RUN {
        output.extend(run_times(&grid.simulator));
    }
    let refusal = rules::fault(&grid, &fault);
    run(
        &grid,
        refusal,
        &calls,
        || grid.simulator.simulate_fault(&fault),
        |steps| grid.simulator.first_steps_of_fault(&fault, steps),
        output,
    );
    Some(())
}

pub fn switching_run(input: &mut impl Iterator<Item = u64>, output: &mut Vec<u64>) -> Option<()> {
    let grid = grids::grid(input)?;
    let breaker = input.next()? as usize;
    let open = input.next()? == 1;
    let calls = calls(input)?;
    let refusal = rules::switching(&grid);
    run(
        &grid,
        refusal,
        &calls,
        || grid.simulator.simulate_switching(breaker, open),
        |steps| {
            let simulator = &grid.simulator;
            simulator.first_steps_of_switching(breaker, open, steps)
        },
        output,
    );
    Some(())
}

/// How many calls, then an allowance and a space for each.
pub fn calls(input: &mut impl Iterator<Item = u64>) -> Option<Vec<Call>> {
    let k = input.next()?;
    (0..k)
        .map(|_| {
            Some(Call {
                allowance: input.next()?,
                space: input.next()?,
            })
        })
        .collect()
}

type Simulated = Result<DcTransientResult, String>;

/// The refusal; if it is 0, for each call its stop, steps and records, then the figures and the steps made in all. What the calls
/// make is known before anything is simulated, so a run that they leave unfinished is simulated no further.
fn run(
    grid: &Grid,
    refusal: u64,
    calls: &[Call],
    whole: impl Fn() -> Simulated,
    first_steps: impl Fn(usize) -> Simulated,
    output: &mut Vec<u64>,
) {
    output.push(refusal);
    if refusal != 0 {
        return;
    }
    let mut steps = Steps::of(grid);
    let portions: Vec<Portion> = calls.iter().map(|&call| steps.advance(call)).collect();
    let simulated = if steps.made == steps.all {
        whole()
    } else {
        first_steps(steps.made as usize)
    };
    let result = simulated.expect("rules 1 and 2 have seen what is missing");
    let mut states = result.states.iter();
    for portion in portions {
        output.extend([portion.stop as u64, portion.steps, portion.records]);
        for state in states.by_ref().take(portion.records as usize) {
            push_record(state, output);
        }
    }
    assert!(states.next().is_none(), "a state that no call has recorded");
    output.extend(
        [
            result.peak_fault_current_ka,
            result.fault_clearing_time_ms,
            result.energy_dissipated_mj,
            result.voltage_recovery_time_ms,
            result.max_di_dt,
        ]
        .map(bits),
    );
    output.extend([u64::from(result.fault_cleared), steps.made]);
}

/// Time, fault current, station voltages, station currents, cable currents, breakers.
fn push_record(state: &DcTransientState, output: &mut Vec<u64>) {
    output.extend([state.time_ms, state.fault_current_ka].map(bits));
    let parts = [
        &state.station_voltages_kv,
        &state.station_currents_ka,
        &state.cable_currents_ka,
    ];
    output.extend(parts.into_iter().flatten().map(|&x| bits(x)));
    let closed = |&closed: &bool| bits(if closed { 1.0 } else { 0.0 });
    output.extend(state.breaker_states.iter().map(closed));
}

pub fn kept_fault_run(input: &mut impl Iterator<Item = u64>) -> Option<u64> {
    let grid = grids::grid(input)?;
    let fault = grids::fault(input)?;
    Some(kept(&grid, rules::fault(&grid, &fault), input.next()?))
}

pub fn kept_switching_run(input: &mut impl Iterator<Item = u64>) -> Option<u64> {
    let grid = grids::grid(input)?;
    let (_breaker, _open) = (input.next()?, input.next()?);
    Some(kept(&grid, rules::switching(&grid), input.next()?))
}

/// What an advance without allowance and memory returns of a run with that many steps made.
fn kept(grid: &Grid, refusal: u64, made: u64) -> u64 {
    let all = total_steps(&grid.simulator) as u64;
    if refusal != 0 || made > all {
        return REFUSED;
    }
    let mut steps = Steps {
        made,
        ..Steps::of(grid)
    };
    let nothing = Call {
        allowance: 0,
        space: 0,
    };
    steps.advance(nothing).stop as u64
}

#[cfg(test)]
mod tests {
    use super::super::{answer, FAULT_RUN, KEPT_FAULT_RUN, KEPT_SWITCHING_RUN, SWITCHING_RUN};
    use super::*;
    use crate::draw::{self, Random};
    use crate::numbers::double;
    use crate::plan::Plan;

    fn answered(numbers: &[u64]) -> Vec<u64> {
        let mut output = Vec::new();
        answer(&mut numbers.iter().copied(), &mut output).expect("a whole job");
        output
    }

    /// One station, one cable and one breaker, four steps of a millisecond, a record of six numbers, and the calls.
    fn four_steps(job: u64, calls: &[[u64; 2]]) -> Plan {
        let mut plan = Plan::small(job);
        plan.times[1] = 4f64.to_bits();
        plan.rest.pop();
        plan.rest.push(calls.len() as u64);
        plan.rest.extend(calls.iter().flatten());
        plan
    }

    /// Of each call its stop, steps and records, without the records' numbers; then the steps made in all.
    fn stops(plan: &Plan, calls: usize) -> (Vec<[u64; 3]>, u64) {
        let output = answered(&plan.numbers());
        let mut at = 1;
        let mut stops = Vec::new();
        for _ in 0..calls {
            stops.push([output[at], output[at + 1], output[at + 2]]);
            at += 3 + 6 * output[at + 2] as usize;
        }
        assert_eq!(output.len(), at + 7);
        (stops, output[at + 6])
    }

    #[test]
    fn stopping() {
        let most = u64::MAX;
        for (calls, expected) in [
            // All at once, and once more.
            (
                vec![[most, 24], [0, 0], [most, most]],
                vec![[0, 4, 4], [0, 0, 0], [0, 0, 0]],
            ),
            // Finished, where the allowance and the memory end there too.
            (vec![[4, 24]], vec![[0, 4, 4]]),
            // Spent comes before full.
            (
                vec![[0, 0], [1, 6], [0, 5], [1, 5], [1, 6]],
                vec![[1, 0, 0], [1, 1, 1], [1, 0, 0], [2, 0, 0], [1, 1, 1]],
            ),
            // A number too few for the second record, or the first.
            (vec![[most, 11], [most, 5]], vec![[2, 1, 1], [2, 0, 0]]),
            (vec![[most, 18], [1, 6]], vec![[2, 3, 3], [0, 1, 1]]),
        ] {
            let made = expected.iter().map(|[_, steps, _]| steps).sum();
            for job in [FAULT_RUN, SWITCHING_RUN] {
                let plan = four_steps(job, &calls);
                assert_eq!(stops(&plan, calls.len()), (expected.clone(), made));
            }
        }
    }

    /// Steps between recorded ones take no memory; 4,096 numbers are lent at most.
    #[test]
    fn between_records() {
        let mut plan = four_steps(FAULT_RUN, &[[u64::MAX, 6], [1, 0], [u64::MAX, u64::MAX]]);
        plan.times[1] = 15_001f64.to_bits();
        let expected = vec![[2, 3, 1], [2, 0, 0], [2, 3 * 682, 682]];
        assert_eq!(stops(&plan, 3), (expected, 3 * 683));
    }

    /// One record of each kind of run: a breaker that opens in the first step, and one that is opened then.
    #[test]
    fn records_by_hand() {
        let one = 1f64.to_bits();
        let mut plan = four_steps(FAULT_RUN, &[[1, 6]]);
        let output = answered(&plan.numbers());
        // Of the variables, the recovery time is still the duration; the fault is cleared at 0 ms.
        let duration = 4f64.to_bits();
        assert_eq!(output[..6], [0, 1, 1, 1, 0, 0]);
        assert_eq!(output[7..], [0, 0, 0, 0, 0, 0, duration, 0, 1, 1]);
        // An open breaker in the last place before the figures, or a closed one.
        plan.breakers[0][3] = one;
        let output = answered(&plan.numbers());
        assert_eq!(output[9..], [one, 0, duration, 0, duration, 0, 0, 1]);
        let plan = four_steps(SWITCHING_RUN, &[[1, 6]]);
        let output = answered(&plan.numbers());
        assert_eq!(double(output[6]), 100.0);
        assert_eq!(output[7..], [0, 0, 0, 0, 0, 0, 0, 0, 1, 1]);
        let mut plan = plan;
        plan.rest[1] = 0;
        assert_eq!(answered(&plan.numbers())[9], one);
    }

    /// A run that ends sooner has the published run's states, as far as it goes, and its results once it goes to the end.
    #[test]
    fn first_steps_of_a_run() {
        let mut random = Random::new(6);
        for job in [FAULT_RUN, SWITCHING_RUN].repeat(200) {
            let numbers = draw::job(job, &mut random).numbers;
            let input = &mut numbers[1..].iter().copied();
            let grid = grids::grid(input).unwrap();
            let simulator = &grid.simulator;
            let fault = grids::fault(input).filter(|_| job == FAULT_RUN);
            let refusal = match &fault {
                Some(fault) => rules::fault(&grid, fault),
                None => rules::switching(&grid),
            };
            let all = total_steps(simulator);
            if refusal != 0 || all > 20_000 {
                continue;
            }
            let whole = match &fault {
                Some(fault) => simulator.simulate_fault(fault),
                None => simulator.simulate_switching(1, true),
            };
            let whole = whole.unwrap();
            for steps in [0, 1, all / 2, all - 1, all, all + 1] {
                let cut = match &fault {
                    Some(fault) => simulator.first_steps_of_fault(fault, steps),
                    None => simulator.first_steps_of_switching(1, true, steps),
                };
                let cut = cut.unwrap();
                let counted = Steps::of(&grid);
                let recorded = (0..steps.min(all)).filter(|&k| counted.is_recorded(k as u64));
                assert_eq!(cut.states.len(), recorded.count());
                let as_far = &whole.states[..cut.states.len()];
                assert_eq!(numbers_of(&cut.states), numbers_of(as_far));
                if steps >= all {
                    assert_eq!(format!("{cut:?}"), format!("{whole:?}"));
                }
            }
        }
    }

    fn numbers_of(states: &[DcTransientState]) -> Vec<u64> {
        let mut output = Vec::new();
        for state in states {
            push_record(state, &mut output);
        }
        output
    }

    /// Below the least times a run is the one at the least ones; outside the ranges it is refused, after the times that a study uses.
    #[test]
    fn runs_at_set_times() {
        let least = [0.0001, 0.001].map(f64::to_bits);
        for (dt_us, duration_ms) in [(0.0, 0.0), (0.05, 0.0005), (-0.0, 0.001), (0.1, 0.0)] {
            let mut plan = four_steps(TIMED_FAULT_RUN, &[[u64::MAX, 4096]]);
            plan.times = [dt_us, duration_ms].map(f64::to_bits);
            let output = answered(&plan.numbers());
            assert_eq!(output[..5], [10, 1, 10, least[0], least[1]]);
            let mut plan = four_steps(FAULT_RUN, &[[u64::MAX, 4096]]);
            plan.times = [0.1, 0.001].map(f64::to_bits);
            assert_eq!(output[5..], answered(&plan.numbers()));
        }
        let mut plan = four_steps(TIMED_FAULT_RUN, &[[u64::MAX, 4096]]);
        plan.times = [f64::NAN, -1.0].map(f64::to_bits);
        assert_eq!(
            answered(&plan.numbers()),
            [10, 1, 10, least[0], least[1], 4]
        );
    }

    #[test]
    fn kept_runs() {
        let most = u64::MAX;
        for job in [KEPT_FAULT_RUN, KEPT_SWITCHING_RUN] {
            for (made, number) in [(0, 1), (3, 1), (4, 0), (5, REFUSED), (most, REFUSED)] {
                let mut plan = Plan::small(job);
                plan.times[1] = 4f64.to_bits();
                *plan.rest.last_mut().unwrap() = made;
                assert_eq!(answered(&plan.numbers()), [number]);
                plan.stations[0][3] = 0;
                assert_eq!(answered(&plan.numbers()), [REFUSED]);
            }
        }
    }
}
