//! Fault runs and switching runs that no rule refused, and kept runs.

use super::{write_counted, Counts};
use crate::dc_switching::{fastest_clearing_ms, time_step_ms, DcBreakerType, DcFaultType};
use crate::grids::{self, Grid};
use crate::jobs::runs::{self, Call, Portion, Steps, Stop, MOST_SPACE, REFUSED};
use crate::jobs::KEPT_FAULT_RUN;
use crate::numbers::double;
use crate::rules;
use std::fmt;

/// A run's calls, and what was answered to them.
struct Run {
    grid: Grid,
    /// As far as the calls went.
    steps: Steps,
    calls: Vec<(Call, Portion)>,
    records: Vec<f64>,
    clearing_ms: f64,
    recovery_ms: f64,
    cleared: bool,
}

impl Run {
    /// From the grid, the numbers after the event and the answer.
    fn read(grid: Grid, rest: &mut impl Iterator<Item = u64>, answer: &[u64]) -> Run {
        let mut steps = Steps::of(&grid);
        let mut records = Vec::new();
        let mut at = 1;
        let calls = runs::calls(rest).expect("a whole job").into_iter();
        let calls = calls.map(|call| {
            let portion = steps.advance(call);
            let end = at + 3 + (portion.records * steps.record) as usize;
            records.extend(answer[at + 3..end].iter().map(|&x| double(x)));
            at = end;
            (call, portion)
        });
        let calls = calls.collect();
        let figures = &answer[at..];
        Run {
            grid,
            steps,
            calls,
            records,
            clearing_ms: double(figures[1]),
            recovery_ms: double(figures[3]),
            cleared: figures[5] == 1,
        }
    }

    fn is_finished(&self) -> bool {
        self.steps.made == self.steps.all
    }

    /// The time of a step.
    fn at_ms(&self, step: u64) -> f64 {
        step as f64 * time_step_ms(&self.grid.simulator)
    }

    /// What portions and records tell.
    fn met(&self) -> Vec<(&'static str, bool)> {
        let Steps {
            all,
            interval,
            record,
            made,
        } = self.steps;
        let any = |is: &dyn Fn(&Call, &Portion) -> bool| self.calls.iter().any(|(c, p)| is(c, p));
        let finishes = self.calls.iter().filter(|(_, p)| p.stop == Stop::Finished);
        let is_full = |p: &Portion| p.stop == Stop::Full;
        let n = self.grid.simulator.stations.len();
        vec![
            ("one step", all == 1),
            ("2 to 5,000 steps", (2..=5000).contains(&all)),
            ("5,001 to 9,999 steps", (5001..10_000).contains(&all)),
            ("every second step recorded", interval == 2),
            ("every third step recorded, or fewer", interval > 2),
            ("all steps made", made == all),
            ("steps left", made < all),
            ("no step made", made == 0),
            (
                "more than one step, made in one call",
                any(&|_, p| p.steps == all && all > 1),
            ),
            (
                "a call that is finished, after another",
                finishes.count() > 1,
            ),
            ("a call that is spent", any(&|_, p| p.stop == Stop::Spent)),
            ("a call that is full", any(&|_, p| is_full(p))),
            (
                "a call that is full at once",
                any(&|_, p| is_full(p) && p.steps == 0),
            ),
            ("no allowance", any(&|c, _| c.allowance == 0)),
            (
                "an allowance of one step",
                any(&|c, p| c.allowance == 1 && p.steps == 1),
            ),
            (
                "the largest allowance",
                any(&|c, _| c.allowance == u64::MAX),
            ),
            ("no memory", any(&|c, _| c.space == 0)),
            (
                "memory of a number too few",
                any(&|c, p| is_full(p) && c.space == (p.records + 1) * record - 1),
            ),
            (
                "memory of one record",
                any(&|c, p| c.space == record && p.records == 1),
            ),
            (
                "more memory than is lent",
                any(&|c, _| c.space > MOST_SPACE),
            ),
            (
                "steps made without a record",
                any(&|_, p| p.steps > 0 && p.records == 0),
            ),
            ("a NaN in a record", self.records.iter().any(|x| x.is_nan())),
            (
                "an infinity in a record",
                self.records.iter().any(|x| x.is_infinite()),
            ),
            (
                "records of finite doubles alone",
                made > 0 && self.records.iter().all(|x| x.is_finite()),
            ),
            (
                "a voltage of 0",
                self.records
                    .chunks(record as usize)
                    .any(|record| record[2..2 + n].contains(&0.0)),
            ),
            (
                "32 stations, 64 cables",
                n == 32 && self.grid.simulator.cables.len() == 64,
            ),
        ]
    }
}

#[derive(Default)]
pub struct FaultRuns(Counts);

impl FaultRuns {
    /// Adds an accepted run with its answer.
    pub fn add(&mut self, job: &[u64], answer: &[u64]) {
        let numbers = &mut job[1..].iter().copied();
        let grid = grids::grid(numbers).expect("a whole job");
        let fault = grids::fault(numbers).expect("a whole job");
        let run = Run::read(grid, numbers, answer);
        let simulator = &run.grid.simulator;
        let Steps { all, made, .. } = run.steps;
        let last_ms = run.at_ms(all - 1);
        let inception_ms = fault.inception_time_ms;
        let is_active = made > 0 && run.at_ms(made - 1) >= inception_ms;
        let fastest_ms = fastest_clearing_ms(simulator);
        let fastest = |is: fn(&DcBreakerType) -> bool| {
            let mut breakers = simulator.breakers.iter();
            breakers.any(|b| {
                let ms = crate::dc_switching::clearing_time_ms(b);
                is(&b.breaker_type) && ms == fastest_ms
            })
        };
        let recovered = run.cleared && run.recovery_ms < simulator.duration_ms;
        let after_clearing = (0..all).find(|&step| run.at_ms(step) > run.clearing_ms);
        let next_ms = after_clearing.map(|step| run.at_ms(step));
        let mut met = run.met();
        met.extend([
            (
                "a pole to ground",
                fault.fault_type == DcFaultType::PoleToGround,
            ),
            (
                "a pole to a pole",
                fault.fault_type == DcFaultType::PoleToPole,
            ),
            (
                "a converter inside",
                fault.fault_type == DcFaultType::ConverterInternal,
            ),
            ("no breaker", simulator.breakers.is_empty()),
            ("several breakers", simulator.breakers.len() > 1),
            (
                "a mechanical breaker, the fastest",
                fastest(|b| matches!(b, DcBreakerType::Mechanical { .. })),
            ),
            (
                "a solid-state breaker, the fastest",
                fastest(|b| matches!(b, DcBreakerType::SolidState { .. })),
            ),
            (
                "a hybrid breaker, the fastest",
                fastest(|b| matches!(b, DcBreakerType::HybridBreaker { .. })),
            ),
            ("an inception at 0 ms", inception_ms == 0.0),
            (
                "an inception in between",
                inception_ms > 0.0 && inception_ms < last_ms,
            ),
            (
                "an inception at the last step",
                all > 1 && inception_ms == last_ms,
            ),
            ("an inception after the last step", inception_ms > last_ms),
            ("cleared at step 0", run.cleared && run.clearing_ms == 0.0),
            ("cleared later", run.cleared && run.clearing_ms > 0.0),
            (
                "cleared at the last of several steps",
                run.cleared && all > 1 && run.clearing_ms == last_ms,
            ),
            (
                "a fault that lasts to the end",
                run.is_finished() && is_active && !run.cleared,
            ),
            (
                "recovered in the step after the clearing",
                recovered && Some(run.recovery_ms) == next_ms,
            ),
            (
                "recovered later",
                recovered && next_ms.is_some_and(|ms| run.recovery_ms > ms),
            ),
            (
                "cleared, and steps later not recovered",
                run.cleared && !recovered && run.at_ms(made - 1) > run.clearing_ms,
            ),
            (
                "left before the inception",
                made > 0 && !run.is_finished() && !is_active,
            ),
            (
                "left while the fault lasts",
                !run.is_finished() && is_active && !run.cleared,
            ),
            ("left after the clearing", !run.is_finished() && run.cleared),
        ]);
        self.0.add(met);
    }

    /// What was counted, each with its name.
    pub fn counted(&self) -> impl Iterator<Item = (&'static str, u64)> + '_ {
        self.0.kinds.iter().copied()
    }
}

impl fmt::Display for FaultRuns {
    fn fmt(&self, f: &mut fmt::Formatter) -> fmt::Result {
        write_counted(f, self.0.all, "accepted fault runs", self.counted())
    }
}

/// Fault runs at times that are set directly: how these stand to the least ones.
#[derive(Default)]
pub struct TimedFaultRuns(Counts);

impl TimedFaultRuns {
    /// Adds an accepted run with its answer from the refusal on.
    pub fn add(&mut self, job: &[u64], answer: &[u64]) {
        let numbers = &mut job[1..].iter().copied();
        let grid = grids::grid_of(job[0], numbers).expect("a whole job");
        grids::fault(numbers).expect("a whole job");
        let [dt_us, duration_ms] = [grid.dt_us, grid.duration_ms];
        let run = Run::read(grid, numbers, answer);
        let simulator = &run.grid.simulator;
        let low_step = dt_us < simulator.dt_us;
        let low_duration = duration_ms < simulator.duration_ms;
        self.0.add(vec![
            ("no time step", dt_us == 0.0),
            ("a time step below the least", low_step),
            ("no duration", duration_ms == 0.0),
            ("a duration below the least", low_duration),
            ("both below the least", low_step && low_duration),
            ("neither", !low_step && !low_duration),
            (
                "several steps made below the least",
                low_step && run.steps.made > 1,
            ),
            (
                "cleared below the least",
                low_step && run.cleared && run.clearing_ms > 0.0,
            ),
            (
                "no breaker, and no clearing before the least duration",
                low_duration && simulator.breakers.is_empty() && run.is_finished(),
            ),
        ]);
    }

    /// What was counted, each with its name.
    pub fn counted(&self) -> impl Iterator<Item = (&'static str, u64)> + '_ {
        self.0.kinds.iter().copied()
    }
}

impl fmt::Display for TimedFaultRuns {
    fn fmt(&self, f: &mut fmt::Formatter) -> fmt::Result {
        let what = "accepted fault runs at set times";
        write_counted(f, self.0.all, what, self.counted())
    }
}

#[derive(Default)]
pub struct SwitchingRuns(Counts);

impl SwitchingRuns {
    /// Adds an accepted run with its answer.
    pub fn add(&mut self, job: &[u64], answer: &[u64]) {
        let numbers = &mut job[1..].iter().copied();
        let grid = grids::grid(numbers).expect("a whole job");
        let breaker = numbers.next().expect("a whole job");
        let open = numbers.next() == Some(1);
        let run = Run::read(grid, numbers, answer);
        let simulator = &run.grid.simulator;
        let breakers = simulator.breakers.len() as u64;
        let made = run.steps.made;
        let switched = made > 0 && run.at_ms(made - 1) >= simulator.duration_ms * 0.1;
        let mut met = run.met();
        met.extend([
            ("opened", open),
            ("closed", !open),
            ("no breaker", breakers == 0),
            ("a breaker number below the count", breaker < breakers),
            (
                "a breaker number below the count of several",
                breakers > 1 && breaker < breakers,
            ),
            (
                "the count as breaker number",
                breakers > 0 && breaker == breakers,
            ),
            (
                "a breaker number past it",
                breakers > 0 && breaker > breakers,
            ),
            ("no cable", simulator.cables.is_empty()),
            ("opened and switched", switched && open),
            ("closed and switched", switched && !open),
            (
                "left before it is switched",
                made > 0 && !run.is_finished() && !switched,
            ),
        ]);
        self.0.add(met);
    }

    /// What was counted, each with its name.
    pub fn counted(&self) -> impl Iterator<Item = (&'static str, u64)> + '_ {
        self.0.kinds.iter().copied()
    }
}

impl fmt::Display for SwitchingRuns {
    fn fmt(&self, f: &mut fmt::Formatter) -> fmt::Result {
        write_counted(f, self.0.all, "accepted switching runs", self.counted())
    }
}

/// Kept runs, also those that are refused.
#[derive(Default)]
pub struct KeptRuns(Counts);

impl KeptRuns {
    /// Adds a kept run of either kind with its answer.
    pub fn add(&mut self, job: &[u64], answer: &[u64]) {
        let numbers = &mut job[1..].iter().copied();
        let grid = grids::grid(numbers).expect("a whole job");
        let rule = if job[0] == KEPT_FAULT_RUN {
            rules::fault(&grid, &grids::fault(numbers).expect("a whole job"))
        } else {
            rules::switching(&grid)
        };
        let made = *job.last().expect("a whole job");
        let all = Steps::of(&grid).all;
        let kept = answer[0] != REFUSED;
        let mut met = vec![
            ("no step made", kept && made == 0),
            ("some steps made", kept && made > 0 && made < all - 1),
            ("one step left", kept && made == all - 1),
            ("no step left", kept && made == all),
            ("one step too many", rule == 0 && made == all + 1),
            ("more steps too many", rule == 0 && made > all + 1),
            ("too many steps, and a rule", rule != 0 && made > all),
        ];
        let by_rule = RULES.into_iter().zip(1..);
        met.extend(by_rule.map(|(name, number)| (name, rule == number && made <= all)));
        self.0.add(met);
    }

    /// What was counted, each with its name.
    pub fn counted(&self) -> impl Iterator<Item = (&'static str, u64)> + '_ {
        self.0.kinds.iter().copied()
    }
}

const RULES: [&str; 9] = [
    "rule 1, and not the steps",
    "rule 2, and not the steps",
    "rule 3, and not the steps",
    "rule 4, and not the steps",
    "rule 5, and not the steps",
    "rule 6, and not the steps",
    "rule 7, and not the steps",
    "rule 8, and not the steps",
    "rule 9, and not the steps",
];

impl fmt::Display for KeptRuns {
    fn fmt(&self, f: &mut fmt::Formatter) -> fmt::Result {
        write_counted(f, self.0.all, "kept runs", self.counted())
    }
}
