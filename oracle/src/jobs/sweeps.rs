//! Sweeps in portions, and kept sweeps: document 01's cases, reasons and rows, from the published fault run and flow.

use super::runs::{self, Call, Stop, MOST_SPACE, REFUSED};
use crate::dc_switching::{
    is_detected, total_steps, DcBreaker, DcCable, DcFaultEvent, DcFaultType, DcTransientState,
    FaultVariables,
};
use crate::grids::{self, Grid, SweepOrder};
use crate::numbers::bits;
use crate::rules;

/// The numbers of a row.
pub const ROW: u64 = 8;
pub type Row = [u64; ROW as usize];

// The reasons, which are added up.
pub const NOT_CLEARED: u64 = 1;
pub const CURRENT: u64 = 2;
pub const ENERGY: u64 = 4;
pub const NOT_DETECTED: u64 = 8;

/// A fault of a sweep.
#[derive(Clone, Copy, PartialEq, Eq, Debug)]
pub struct Case {
    pub cable: usize,
    pub fault_type: u64,
    pub tenth: u64,
}

/// A sweep on a grid and an order that are accepted.
pub struct Sweep {
    pub grid: Grid,
    pub order: SweepOrder,
    pub cases: Vec<Case>,
    /// The flow's loss in each cable.
    losses_mw: Vec<f64>,
}

/// A case after some of its steps.
pub struct Opened {
    pub variables: FaultVariables,
    /// Whether a step that reason 8 counts is detected.
    pub detected: bool,
    /// The fault current of the clearing step, or 0.
    pub clearing_ka: f64,
}

impl Sweep {
    pub fn of(grid: Grid, order: SweepOrder) -> Sweep {
        let flow = grid.simulator.solve_dc_power_flow();
        let losses_mw = flow.expect("rule 1 has seen a station").cable_losses_mw;
        Sweep {
            cases: cases(&grid, &order),
            grid,
            order,
            losses_mw,
        }
    }

    /// The steps of a case.
    pub fn steps(&self) -> u64 {
        total_steps(&self.grid.simulator) as u64
    }

    pub fn cable(&self, case: Case) -> &DcCable {
        &self.grid.simulator.cables[case.cable]
    }

    pub fn fault(&self, case: Case) -> DcFaultEvent {
        DcFaultEvent {
            fault_type: match case.fault_type {
                0 => DcFaultType::PoleToGround,
                1 => DcFaultType::PoleToPole,
                _ => DcFaultType::ConverterInternal,
            },
            location_cable_id: case.cable,
            location_fraction: case.tenth as f64 / 10.0,
            fault_resistance: self.order.fault_resistance,
            inception_time_ms: self.order.inception_time_ms,
        }
    }

    /// Shows the state of each of the case's first steps, and whether the fault is cleared then; returns the variables.
    pub fn watch(
        &self,
        case: Case,
        steps: u64,
        after_step: impl FnMut(&DcTransientState, bool),
    ) -> FaultVariables {
        self.grid
            .simulator
            .watched_fault(&self.fault(case), steps as usize, after_step)
            .expect("rules 1 and 2 have seen what is missing")
    }

    /// Reason 8 counts the steps from 1 up to the clearing one.
    pub fn after(&self, case: Case, steps: u64) -> Opened {
        let mut detected = false;
        let mut clearing_ka = 0.0;
        let mut was_cleared = false;
        let mut before: Option<DcTransientState> = None;
        let variables = self.watch(case, steps, |state, is_cleared| {
            if was_cleared {
                return;
            }
            if let Some(before) = &before {
                detected = detected || is_detected(&self.grid.simulator, state, before);
            }
            if is_cleared {
                clearing_ka = state.fault_current_ka;
            }
            was_cleared = is_cleared;
            before = Some(state.clone());
        });
        Opened {
            variables,
            detected,
            clearing_ka,
        }
    }

    /// The steps from 1 on that are detected against the step before, also those that reason 8 does not count.
    pub fn detected_steps(&self, case: Case) -> Vec<u64> {
        let mut states = Vec::new();
        self.watch(case, self.steps(), |state, _| states.push(state.clone()));
        let pairs = (1..).zip(states.windows(2));
        pairs
            .filter(|(_, pair)| is_detected(&self.grid.simulator, &pair[1], &pair[0]))
            .map(|(step, _)| step)
            .collect()
    }

    /// When a case is detected, in words: the first such step that reason 8 counts.
    pub fn detected_when(&self, case: Case) -> &'static str {
        let mut step = 0;
        let mut clearing = None;
        self.watch(case, self.steps(), |_, is_cleared| {
            if is_cleared && clearing.is_none() {
                clearing = Some(step);
            }
            step += 1;
        });
        let counted = |&step: &u64| clearing.map_or(true, |last| step <= last);
        match self.detected_steps(case).into_iter().find(counted) {
            None => "never",
            found if found == clearing => "at the clearing step",
            Some(1..=3) => "in the first three steps",
            Some(4..=99) => "before step 100",
            Some(_) => "later",
        }
    }

    /// Of a case with all of its steps made.
    pub fn reasons(&self, case: Case, closed: &Opened) -> u64 {
        let cleared = closed.variables.fault_cleared;
        let mj = closed.variables.energy_mj;
        let breakers: Vec<&DcBreaker> = self.breakers_at_an_end(case).collect();
        let current = |b: &&DcBreaker| exceeds(closed.clearing_ka, b.max_breaking_current_ka);
        let energy = |b: &&DcBreaker| exceeds(mj, b.energy_absorption_mj);
        let reason = |number: u64, applies: bool| if applies { number } else { 0 };
        reason(NOT_CLEARED, !cleared)
            + reason(CURRENT, cleared && breakers.iter().any(current))
            + reason(ENERGY, breakers.iter().any(energy))
            + reason(NOT_DETECTED, !closed.detected)
    }

    /// The ends are taken as given, also those past the count.
    pub fn breakers_at_an_end(&self, case: Case) -> impl Iterator<Item = &DcBreaker> {
        let cable = self.cable(case);
        let ends = [cable.from_station, cable.to_station];
        let breakers = self.grid.simulator.breakers.iter();
        breakers.filter(move |b| ends.contains(&b.station_id))
    }

    /// The row that the listing has for a case, if it has one.
    pub fn row(&self, case: Case) -> Option<Row> {
        let closed = self.after(case, self.steps());
        let reasons = self.reasons(case, &closed);
        let doubles = [
            closed.variables.peak_fault_ka,
            closed.clearing_ka,
            closed.variables.energy_mj,
            self.losses_mw[case.cable],
        ];
        let [peak, clearing, energy, loss] = doubles.map(bits);
        let Case {
            cable,
            fault_type,
            tenth,
        } = case;
        let row = [
            cable as u64,
            fault_type,
            tenth,
            reasons,
            peak,
            clearing,
            energy,
            loss,
        ];
        Some(row).filter(|_| reasons != 0)
    }
}

/// Cable ascending, then type, then tenth ascending.
pub fn cases(grid: &Grid, order: &SweepOrder) -> Vec<Case> {
    let mut cases = Vec::new();
    for cable in 0..grid.simulator.cables.len() {
        for fault_type in 0..3 {
            for tenth in order.low_tenth..=order.high_tenth {
                cases.push(Case {
                    cable,
                    fault_type,
                    tenth,
                });
            }
        }
    }
    cases
}

/// A NaN exceeds.
fn exceeds(x: f64, limit: f64) -> bool {
    x.is_nan() || x > limit
}

/// The steps of a sweep that are made, counted without the sweep itself.
#[derive(Clone, Copy)]
pub struct Steps {
    pub of_a_case: u64,
    pub cases: u64,
    pub made: u64,
}

/// How a call ended, how many steps it made, and the rows that it wrote.
pub struct Portion {
    pub stop: Stop,
    pub steps: u64,
    pub rows: Vec<Row>,
}

impl Steps {
    /// Before the first step.
    pub fn of(sweep: &Sweep) -> Steps {
        Steps {
            of_a_case: sweep.steps(),
            cases: sweep.cases.len() as u64,
            made: 0,
        }
    }

    pub fn all(&self) -> u64 {
        self.of_a_case * self.cases
    }

    /// The open case, by its place; the number of cases if none is left.
    pub fn case(&self) -> u64 {
        self.made / self.of_a_case
    }

    pub fn in_the_open_case(&self) -> u64 {
        self.made % self.of_a_case
    }

    /// Finished when no step is left; else spent when the allowance is made; else full, before the last step of a case if no whole row
    /// fits. `row` gives the row of a case that closes, if it has one.
    pub fn advance(&mut self, call: Call, mut row: impl FnMut(usize) -> Option<Row>) -> Portion {
        let room = call.space.min(MOST_SPACE) / ROW;
        let mut steps = 0;
        let mut rows = Vec::new();
        let stop = loop {
            if self.made == self.all() {
                break Stop::Finished;
            }
            if steps == call.allowance {
                break Stop::Spent;
            }
            let is_last = self.in_the_open_case() == self.of_a_case - 1;
            if is_last && rows.len() as u64 == room {
                break Stop::Full;
            }
            if is_last {
                rows.extend(row(self.case() as usize));
            }
            self.made += 1;
            steps += 1;
        };
        Portion { stop, steps, rows }
    }
}

/// The refusal; if it is 0, for each call its stop, steps and rows, then the kept sweep.
pub fn sweep(input: &mut impl Iterator<Item = u64>, output: &mut Vec<u64>) -> Option<()> {
    let grid = grids::grid(input)?;
    let order = grids::order(input)?;
    let calls = runs::calls(input)?;
    let refusal = rules::sweep(&grid, &order);
    output.push(refusal);
    if refusal != 0 {
        return Some(());
    }
    let sweep = Sweep::of(grid, order);
    let mut steps = Steps::of(&sweep);
    for call in calls {
        let portion = steps.advance(call, |i| sweep.row(sweep.cases[i]));
        output.extend([
            portion.stop as u64,
            portion.steps,
            portion.rows.len() as u64,
        ]);
        output.extend(portion.rows.into_iter().flatten());
    }
    output.extend([steps.case(), steps.in_the_open_case()]);
    match sweep.cases.get(steps.case() as usize) {
        Some(&case) => push_opened(&sweep.after(case, steps.in_the_open_case()), output),
        None => output.extend(vec![0; opened_length(&sweep.grid)]),
    }
    Some(())
}

/// How many numbers an open case has.
pub fn opened_length(grid: &Grid) -> usize {
    let simulator = &grid.simulator;
    12 + 2 * simulator.stations.len() + simulator.cables.len() + simulator.breakers.len()
}

/// Detected, clearing-step current, the variables, and the state: time, fault current, station voltages, station currents, cable
/// currents, breakers.
fn push_opened(opened: &Opened, output: &mut Vec<u64>) {
    let variables = &opened.variables;
    let state = &variables.state;
    output.extend([
        u64::from(opened.detected),
        bits(opened.clearing_ka),
        bits(variables.peak_fault_ka),
        bits(variables.max_di_dt),
        bits(variables.energy_mj),
        u64::from(variables.fault_cleared),
        bits(variables.clearing_time_ms),
        bits(variables.voltage_recovery_time_ms),
        bits(variables.prev_fault_current_ka),
        u64::from(variables.fault_active),
        bits(state.time_ms),
        bits(state.fault_current_ka),
    ]);
    let parts = [
        &state.station_voltages_kv,
        &state.station_currents_ka,
        &state.cable_currents_ka,
    ];
    output.extend(parts.into_iter().flatten().map(|&x| bits(x)));
    output.extend(state.breaker_states.iter().map(|&closed| u64::from(closed)));
}

/// What an advance without allowance and memory returns of a sweep with that case open, and that many steps of it made.
pub fn kept_sweep(input: &mut impl Iterator<Item = u64>) -> Option<u64> {
    let grid = grids::grid(input)?;
    let order = grids::order(input)?;
    let case = input.next()?;
    let made = input.next()?;
    if rules::kept_sweep(&grid, &order) != 0 {
        return Some(REFUSED);
    }
    let all = cases(&grid, &order).len() as u64;
    let of_a_case = total_steps(&grid.simulator) as u64;
    let is_left = case < all;
    if case > all || made >= of_a_case || (!is_left && made != 0) {
        return Some(REFUSED);
    }
    let stop = if is_left { Stop::Spent } else { Stop::Finished };
    Some(stop as u64)
}

#[cfg(test)]
mod tests {
    use super::super::{answer, FAULT_RUN, KEPT_SWEEP, SWEEP};
    use super::*;
    use crate::draw::{self, Random};
    use crate::numbers::{double, NAN};
    use crate::plan::Plan;

    fn answered(plan: &Plan) -> Vec<u64> {
        let mut output = Vec::new();
        answer(&mut plan.numbers().into_iter(), &mut output).expect("a whole job");
        output
    }

    fn with_calls(mut plan: Plan, calls: &[[u64; 2]]) -> Plan {
        plan.rest = vec![calls.len() as u64];
        plan.rest.extend(calls.iter().flatten());
        plan
    }

    /// Two stations of 100 kV, a cable of 1 ohm between them, a breaker that opens at once at the first, and one tenth.
    fn pair(tenth: u64, steps: f64, calls: &[[u64; 2]]) -> Plan {
        let mut plan = Plan::small(SWEEP);
        plan.times[1] = steps.to_bits();
        plan.stations.push(plan.stations[0]);
        plan.counts[0] = 2;
        let [ohms, km] = [1f64, 1.0].map(f64::to_bits);
        plan.cables[0] = [0, 0, 1, ohms, 0, 0, km];
        plan.event[2..].copy_from_slice(&[tenth, tenth]);
        with_calls(plan, calls)
    }

    /// Refusal, and the first call's portion and rows.
    fn rows(plan: &Plan) -> Vec<Row> {
        let output = answered(plan);
        assert_eq!(output[0], 0);
        let rows = output[4..].chunks_exact(8).take(output[3] as usize);
        rows.map(|row| row.try_into().expect("a whole row"))
            .collect()
    }

    /// In ohms, at a cable's end: takes two fifths of the voltages in a step.
    const DRAIN: f64 = 6000.0;

    const ALL: [[u64; 2]; 1] = [[u64::MAX, 4096]];

    /// Document 01's sheet: nothing is detected, since no step follows the clearing one.
    #[test]
    fn worked_example() {
        let plan = pair(0, 1.0, &ALL);
        let expected = [0, 1, 2].map(|fault_type| [0, fault_type, 0, 8, 0, 0, 0, 0]);
        assert_eq!(rows(&plan), expected);
        let output = answered(&plan);
        assert_eq!(output[..4], [0, 0, 3, 3]);
        // No case left: its number, no step, and zeros.
        let mut end = vec![3, 0];
        end.extend([0; 12 + 2 + 2 + 1 + 1]);
        assert_eq!(output[28..], end);
    }

    #[test]
    fn order_of_the_cases() {
        let mut plan = pair(3, 1.0, &ALL);
        plan.cables.push(plan.cables[0]);
        plan.counts[1] = 2;
        plan.event[3] = 4;
        let places: Vec<[u64; 3]> = rows(&plan)
            .iter()
            .map(|row| [row[0], row[1], row[2]])
            .collect();
        let mut expected = Vec::new();
        for cable in 0..2 {
            for fault_type in 0..3 {
                expected.extend([[cable, fault_type, 3], [cable, fault_type, 4]]);
            }
        }
        assert_eq!(places, expected);
    }

    /// The refusals, and a flow that has not converged after all others.
    #[test]
    fn refused() {
        let mut plan = pair(0, 1.0, &ALL);
        plan.stations[1][4] = 20_000f64.to_bits();
        assert_eq!(answered(&plan), [10]);
        plan.event[0] = NAN;
        assert_eq!(answered(&plan), [9]);
    }

    /// Stop, steps and rows of each call.
    fn stops(plan: &Plan, calls: usize) -> Vec<[u64; 3]> {
        let output = answered(plan);
        let mut at = 1;
        let mut stops = Vec::new();
        for _ in 0..calls {
            stops.push([output[at], output[at + 1], output[at + 2]]);
            at += 3 + 8 * output[at + 2] as usize;
        }
        assert_eq!(output.len(), at + 2 + 12 + 2 * 2 + 1 + 1);
        stops
    }

    /// Three cases of four steps, each with a row.
    #[test]
    fn stopping() {
        let most = u64::MAX;
        for (calls, expected) in [
            // All at once, and once more.
            (
                vec![[most, 24], [0, 0], [most, most]],
                vec![[0, 12, 3], [0, 0, 0], [0, 0, 0]],
            ),
            // Finished, where the allowance and the memory end there too.
            (vec![[12, 24]], vec![[0, 12, 3]]),
            // Spent comes before full.
            (
                vec![[0, 0], [3, 0], [0, 7], [1, 7], [1, 8], [3, 0], [1, 15]],
                vec![
                    [1, 0, 0],
                    [1, 3, 0],
                    [1, 0, 0],
                    [2, 0, 0],
                    [1, 1, 1],
                    [1, 3, 0],
                    [1, 1, 1],
                ],
            ),
            // A number too few for the second row, or the first.
            (
                vec![[most, 15], [most, 7], [most, 8], [4, 8]],
                vec![[2, 7, 1], [2, 0, 0], [2, 4, 1], [0, 1, 1]],
            ),
            // Between two cases, and a step beside that.
            (
                vec![[4, 8], [3, 8], [2, 8], [4, 8]],
                vec![[1, 4, 1], [1, 3, 0], [1, 2, 1], [0, 3, 1]],
            ),
        ] {
            let plan = pair(0, 4.0, &calls);
            assert_eq!(stops(&plan, calls.len()), expected);
        }
    }

    /// Three cases that have no row: without room for one, each still stops before its last step.
    #[test]
    fn full_without_a_row() {
        let calls = [[u64::MAX, 7], [u64::MAX, 7], [1, 8], [u64::MAX, 0], ALL[0]];
        let mut plan = pair(10, 4.0, &calls);
        // Cleared at 2 ms, and detected before.
        plan.event[0] = DRAIN.to_bits();
        plan.breakers[0][3] = 2f64.to_bits();
        plan.breakers[0][5..].copy_from_slice(&[1000f64, 1e5].map(f64::to_bits));
        let expected = [[2, 3, 0], [2, 0, 0], [1, 1, 0], [2, 3, 0], [0, 5, 0]];
        assert_eq!(stops(&plan, calls.len()), expected);
        // One row's room is enough for all of them.
        let plan = with_calls(plan, &[[u64::MAX, 8]]);
        assert_eq!(stops(&plan, 1), [[0, 12, 0]]);
    }

    /// Of the one breaker at an end; at a station that is none, no limit counts.
    #[test]
    fn reasons_by_hand() {
        // Currents of 4 steps, the last of which clears; detected by the voltages, if there is a drain.
        let mut plan = pair(10, 4.0, &ALL);
        plan.event[0] = DRAIN.to_bits();
        plan.breakers[0][3] = 3f64.to_bits();
        let set = |plan: &mut Plan, ka: f64, mj: f64| {
            plan.breakers[0][5..].copy_from_slice(&[ka, mj].map(f64::to_bits));
        };
        let row = rows(&plan)[1];
        assert_eq!(row[..4], [0, 1, 10, 2 + 4]);
        let [peak, ka, mj] = [row[4], row[5], row[6]].map(double);
        assert!(peak >= ka && ka > 0.0 && mj > 0.0);
        let reasons = |plan: &Plan| {
            let rows = rows(plan);
            let row = rows.iter().find(|row| row[1] == 1);
            row.map_or(0, |row| row[3])
        };
        set(&mut plan, ka, mj);
        assert_eq!(reasons(&plan), 0);
        set(&mut plan, ka.next_down(), mj);
        assert_eq!(reasons(&plan), 2);
        set(&mut plan, ka, mj.next_down());
        assert_eq!(reasons(&plan), 4);
        // At the other end, at both, and at none, also where an end past the count would be cut to the last station.
        plan.breakers[0][1] = 1;
        assert_eq!(reasons(&plan), 4);
        plan.breakers[0][1] = 2;
        assert_eq!(reasons(&plan), 0);
        let mut cut = plan.clone();
        cut.cables[0][2] = 2;
        cut.breakers[0][5..].copy_from_slice(&[0, 0]);
        assert_eq!(reasons(&cut), 2 + 4);
        cut.breakers[0][1] = 1;
        assert_eq!(reasons(&cut), 0);
        // Not cleared: no current counts, the energy does.
        plan.breakers[0][1] = 0;
        plan.breakers[0][3] = 4f64.to_bits();
        set(&mut plan, 0.0, 1e5);
        assert_eq!(reasons(&plan), 1);
        set(&mut plan, 0.0, 0.0);
        assert_eq!(reasons(&plan), 1 + 4);
        let not_cleared = rows(&plan)[1];
        assert_eq!(not_cleared[5], 0);
        // At the start of the cable there is no drain, and nothing is detected.
        plan.event[2..].copy_from_slice(&[0, 0]);
        assert_eq!(reasons(&plan), 1 + 4 + 8);
        // Cleared at step 0, though later steps are low.
        plan.event[2..].copy_from_slice(&[10, 10]);
        plan.breakers[0][3] = 0;
        set(&mut plan, 1000.0, 1e5);
        assert_eq!(reasons(&plan), 8);
    }

    #[test]
    fn a_nan_exceeds() {
        assert!(exceeds(f64::NAN, 1.0));
        assert!(exceeds(2.0, 1.0));
        assert!(!exceeds(1.0, 1.0));
        assert!(!exceeds(0.0, 1.0));
    }

    /// With no step made it is the run before its loop, after the others too.
    #[test]
    fn open_cases_by_hand() {
        let one = 1u64;
        let [kv, duration] = [100f64, 4.0].map(f64::to_bits);
        let fresh = [
            0, 0, 0, 0, 0, 0, duration, duration, 0, 0, 0, 0, kv, kv, 0, 0, 0, one,
        ];
        let output = answered(&pair(0, 4.0, &[]));
        assert_eq!(output[..3], [0, 0, 0]);
        assert_eq!(output[3..], fresh);
        let output = answered(&pair(0, 4.0, &[[4, 8]]));
        assert_eq!(output[12..14], [1, 0]);
        assert_eq!(output[14..], fresh);
        // Cleared in the first step, at 0 ms; in the second the voltages have recovered, at 1 ms.
        let step = 1f64.to_bits();
        for (steps, recovery, time) in [(1, duration, 0), (2, step, step)] {
            let output = answered(&pair(0, 4.0, &[[steps, 0]]));
            assert_eq!(output[4..6], [0, steps]);
            let expected = [
                0, 0, 0, 0, 0, 1, 0, recovery, 0, 1, time, 0, kv, kv, 0, 0, 0, 0,
            ];
            assert_eq!(output[6..], expected);
        }
    }

    /// A watched run has the published run's states and variables, and shows every step.
    #[test]
    fn watched_runs() {
        let mut random = Random::new(7);
        for _ in 0..300 {
            let numbers = draw::job(FAULT_RUN, &mut random).numbers;
            let input = &mut numbers[1..].iter().copied();
            let grid = grids::grid(input).expect("a whole grid");
            let fault = grids::fault(input).expect("a whole fault");
            let simulator = &grid.simulator;
            let all = total_steps(simulator);
            if rules::fault(&grid, &fault) != 0 || all > 20_000 {
                continue;
            }
            let counted = runs::Steps::of(&grid);
            for steps in [0, 1, all / 2, all, all + 1] {
                let mut shown = Vec::new();
                let watched = simulator.watched_fault(&fault, steps, |state, is_cleared| {
                    shown.push((format!("{state:?}"), is_cleared));
                });
                let watched = watched.expect("accepted");
                assert_eq!(shown.len(), steps.min(all));
                let run = simulator.first_steps_of_fault(&fault, steps);
                let run = run.expect("accepted");
                let recorded = (0..shown.len()).filter(|&step| counted.is_recorded(step as u64));
                let states: Vec<&String> = recorded.map(|step| &shown[step].0).collect();
                assert_eq!(states.len(), run.states.len());
                for (state, recorded) in states.into_iter().zip(&run.states) {
                    assert_eq!(*state, format!("{recorded:?}"));
                }
                if let Some((state, is_cleared)) = shown.last() {
                    assert_eq!(*state, format!("{:?}", watched.state));
                    assert_eq!(*is_cleared, watched.fault_cleared);
                }
                let variables = [
                    watched.peak_fault_ka,
                    watched.clearing_time_ms,
                    watched.energy_mj,
                    watched.voltage_recovery_time_ms,
                    watched.max_di_dt,
                ];
                let results = [
                    run.peak_fault_current_ka,
                    run.fault_clearing_time_ms,
                    run.energy_dissipated_mj,
                    run.voltage_recovery_time_ms,
                    run.max_di_dt,
                ];
                assert_eq!(variables.map(bits), results.map(bits));
                assert_eq!(watched.fault_cleared, run.fault_cleared);
            }
        }
    }

    /// Three cases of four steps.
    #[test]
    fn kept_sweeps() {
        let most = u64::MAX;
        let kept = |case: u64, made: u64| {
            let mut plan = pair(5, 4.0, &[]);
            plan.job = KEPT_SWEEP;
            plan.rest = vec![case, made];
            plan
        };
        for (case, made, number) in [
            (0, 0, 1),
            (0, 3, 1),
            (2, 3, 1),
            (3, 0, 0),
            (0, 4, REFUSED),
            (0, most, REFUSED),
            (2, 4, REFUSED),
            (3, 1, REFUSED),
            (3, 4, REFUSED),
            (4, 0, REFUSED),
            (most, 0, REFUSED),
            (most, most, REFUSED),
        ] {
            let mut plan = kept(case, made);
            assert_eq!(answered(&plan), [number], "{case} {made}");
            plan.stations[0][3] = 0;
            assert_eq!(answered(&plan), [REFUSED]);
        }
        // The flow is not solved again.
        let mut plan = kept(3, 0);
        plan.stations[1][4] = 20_000f64.to_bits();
        assert_eq!(answered(&plan), [0]);
        // Tenths that the cases cannot be counted by.
        plan.event[2..].copy_from_slice(&[most, 0]);
        assert_eq!(answered(&plan), [REFUSED]);
    }
}
