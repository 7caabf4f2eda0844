//! Sweeps that no rule refused, and kept sweeps.

use super::{write_counted, Counts};
use crate::dc_switching::{record_interval, DcBreaker};
use crate::grids;
use crate::jobs::runs::{self, Call, Stop, MOST_SPACE, REFUSED};
use crate::jobs::sweeps::{cases, Case, Opened, Portion, Steps, Sweep, ROW};
use crate::numbers::double;
use crate::rules;
use std::fmt;

type Met = Vec<(&'static str, bool)>;

/// A case with all of its steps made.
struct Closed {
    case: Case,
    after: Opened,
    reasons: u64,
    clearing_step: Option<u64>,
    /// The steps that are detected, also those that reason 8 does not count.
    detected: Vec<u64>,
}

impl Closed {
    fn of(sweep: &Sweep, case: Case) -> Closed {
        let after = sweep.after(case, sweep.steps());
        let mut not_cleared = 0;
        sweep.watch(case, sweep.steps(), |_, is_cleared| {
            not_cleared += u64::from(!is_cleared);
        });
        Closed {
            case,
            reasons: sweep.reasons(case, &after),
            clearing_step: Some(not_cleared).filter(|_| after.variables.fault_cleared),
            detected: sweep.detected_steps(case),
            after,
        }
    }

    /// The detected steps that reason 8 counts.
    fn counted(&self) -> impl Iterator<Item = u64> + '_ {
        let last = self.clearing_step.unwrap_or(u64::MAX);
        self.detected
            .iter()
            .copied()
            .take_while(move |&s| s <= last)
    }
}

/// A call, the steps made before it, and what it made.
struct Made {
    call: Call,
    before: Steps,
    portion: Portion,
    /// How many cases it closed.
    closed: u64,
}

/// A sweep as far as the calls went.
struct Advanced {
    sweep: Sweep,
    steps: Steps,
    calls: Vec<Made>,
    closed: Vec<Closed>,
    /// The open case's numbers.
    open: Vec<u64>,
}

impl Advanced {
    fn read(job: &[u64], answer: &[u64]) -> Advanced {
        let numbers = &mut job[1..].iter().copied();
        let grid = grids::grid(numbers).expect("a whole job");
        let order = grids::order(numbers).expect("a whole job");
        let calls = runs::calls(numbers).expect("a whole job");
        let sweep = Sweep::of(grid, order);
        let mut steps = Steps::of(&sweep);
        let mut closed: Vec<Closed> = Vec::new();
        let calls = calls.into_iter().map(|call| {
            let before = steps;
            let portion = steps.advance(call, |i| {
                let case = Closed::of(&sweep, sweep.cases[i]);
                let row = Some([0; ROW as usize]).filter(|_| case.reasons != 0);
                closed.push(case);
                row
            });
            Made {
                call,
                before,
                portion,
                closed: steps.case() - before.case(),
            }
        });
        let calls = calls.collect();
        let open = answer.len() - crate::jobs::sweeps::opened_length(&sweep.grid);
        Advanced {
            steps,
            calls,
            closed,
            open: answer[open..].to_vec(),
            sweep,
        }
    }

    /// What the grid and the order are.
    fn sizes(&self) -> Met {
        let n = self.sweep.steps();
        let simulator = &self.sweep.grid.simulator;
        let [stations, cables] = [simulator.stations.len(), simulator.cables.len()];
        let order = &self.sweep.order;
        let ids: Vec<usize> = simulator.stations.iter().map(|s| s.id).collect();
        let twice = |(i, id): (usize, &usize)| ids[..i].contains(id);
        let past = |end: usize| end >= stations;
        vec![
            ("one step to a case", n == 1),
            ("2 to 60 steps to a case", (2..=60).contains(&n)),
            ("more steps, all recorded", n > 60 && n < 10_000),
            (
                "steps that are not recorded",
                record_interval(n as usize) > 1,
            ),
            ("one cable", cables == 1),
            ("several cables", cables > 1),
            ("one tenth", order.low_tenth == order.high_tenth),
            ("several tenths", order.low_tenth < order.high_tenth),
            ("all tenths", order.low_tenth == 0 && order.high_tenth == 10),
            ("32 stations, 64 cables", stations == 32 && cables == 64),
            ("two stations of one id", ids.iter().enumerate().any(twice)),
            (
                "an end past the count",
                simulator
                    .cables
                    .iter()
                    .any(|c| past(c.from_station) || past(c.to_station)),
            ),
            ("no breaker", simulator.breakers.is_empty()),
            ("several breakers", simulator.breakers.len() > 1),
        ]
    }

    /// What the calls were, and how they ended.
    fn portions(&self) -> Met {
        let n = self.sweep.steps();
        let any = |is: &dyn Fn(&Made) -> bool| self.calls.iter().any(is);
        let stops = |m: &Made, stop: Stop| m.portion.stop == stop;
        let rows = |m: &Made| m.portion.rows.len() as u64;
        let room = |m: &Made| m.call.space.min(MOST_SPACE) / ROW;
        let after = |m: &Made| (m.before.made + m.portion.steps) % n;
        let finished = self.calls.iter().filter(|m| stops(m, Stop::Finished));
        vec![
            ("all steps made", self.steps.made == self.steps.all()),
            ("steps left", self.steps.made < self.steps.all()),
            ("no step made", self.steps.made == 0),
            (
                "all cases in one call",
                any(&|m| m.portion.steps == self.steps.all()),
            ),
            (
                "a call that is finished, after another",
                finished.count() > 1,
            ),
            ("a call that is spent", any(&|m| stops(m, Stop::Spent))),
            ("a call that is full", any(&|m| stops(m, Stop::Full))),
            (
                "a call that is full at once",
                any(&|m| stops(m, Stop::Full) && m.portion.steps == 0),
            ),
            (
                "a call that is full after some rows",
                any(&|m| stops(m, Stop::Full) && rows(m) > 0),
            ),
            (
                "a call that is full before a case without a row",
                any(&|m| stops(m, Stop::Full) && self.has_no_row(m.before.case() + m.closed)),
            ),
            (
                "a call that is spent where no row fits",
                any(&|m| stops(m, Stop::Spent) && after(m) == n - 1 && rows(m) == room(m)),
            ),
            ("several cases closed in a call", any(&|m| m.closed > 1)),
            ("a case closed without a row", any(&|m| m.closed > rows(m))),
            (
                "more cases closed than rows fit",
                any(&|m| m.closed > room(m)),
            ),
            (
                "a case closed, and steps of the next made",
                any(&|m| m.closed > 0 && after(m) > 0),
            ),
            (
                "a case closed that an earlier call opened",
                any(&|m| m.closed > 0 && m.before.in_the_open_case() > 0),
            ),
            ("no allowance", any(&|m| m.call.allowance == 0)),
            ("an allowance of one step", any(&|m| m.call.allowance == 1)),
            (
                "an allowance of a case less one step",
                any(&|m| n > 2 && m.call.allowance == n - 1),
            ),
            (
                "an allowance of a case",
                any(&|m| n > 1 && m.call.allowance == n),
            ),
            (
                "an allowance of a case and one step",
                any(&|m| m.call.allowance == n + 1),
            ),
            (
                "the largest allowance",
                any(&|m| m.call.allowance == u64::MAX),
            ),
            ("no memory", any(&|m| m.call.space == 0)),
            ("memory of 7 numbers", any(&|m| m.call.space == 7)),
            ("memory of 8 numbers", any(&|m| m.call.space == 8)),
            ("memory of 15 numbers", any(&|m| m.call.space == 15)),
            ("memory of 16 numbers", any(&|m| m.call.space == 16)),
            (
                "more memory than is lent",
                any(&|m| m.call.space > MOST_SPACE),
            ),
        ]
    }

    /// Whether a case that is open, or was, has no row.
    fn has_no_row(&self, case: u64) -> bool {
        let case = self.sweep.cases[case as usize];
        self.sweep.row(case).is_none()
    }

    /// How the cases that closed went.
    fn cases(&self) -> Met {
        let n = self.sweep.steps();
        let interval = record_interval(n as usize) as u64;
        let any = |is: &dyn Fn(&Closed) -> bool| self.closed.iter().any(is);
        let at = |c: &Closed, step: u64| c.clearing_step == Some(step);
        let first = |c: &Closed| c.counted().next();
        let active = |c: &Closed| c.after.variables.fault_active;
        let mut met: Met = REASONS
            .iter()
            .map(|&(name, reasons)| (name, any(&|c| c.reasons == reasons)))
            .collect();
        met.extend([
            ("cleared at step 0 of several", any(&|c| n > 1 && at(c, 0))),
            (
                "cleared at the last of several steps",
                any(&|c| n > 1 && at(c, n - 1)),
            ),
            (
                "cleared in between",
                any(&|c| c.clearing_step.is_some_and(|s| s > 0 && s < n - 1)),
            ),
            (
                "a fault that lasts to the end",
                any(&|c| active(c) && c.clearing_step.is_none()),
            ),
            ("a fault that never begins", any(&|c| !active(c))),
            (
                "first detected at step 1, and cleared later",
                any(&|c| first(c) == Some(1) && !at(c, 1)),
            ),
            (
                "first detected at the clearing step",
                any(&|c| first(c).is_some() && first(c) == c.clearing_step),
            ),
            (
                "first detected at the last step, and not cleared",
                any(&|c| c.clearing_step.is_none() && n > 2 && first(c) == Some(n - 1)),
            ),
            (
                "detected after the clearing step alone",
                any(&|c| first(c).is_none() && !c.detected.is_empty()),
            ),
            (
                "no step of several detected",
                any(&|c| n > 1 && c.detected.is_empty()),
            ),
            (
                "detected at steps alone that are not recorded",
                any(&|c| {
                    first(c).is_some() && !c.counted().any(|s| s % interval == 0 || s == n - 1)
                }),
            ),
            (
                "a clearing step's current below the peak",
                any(&|c| {
                    let ka = c.after.clearing_ka;
                    ka > 0.0 && ka < c.after.variables.peak_fault_ka
                }),
            ),
            (
                "a loss in the cable",
                any(&|c| {
                    self.sweep
                        .row(c.case)
                        .is_some_and(|row| double(row[7]) > 0.0)
                }),
            ),
        ]);
        met
    }

    /// What the breakers at the ends bear, and what was asked of them.
    fn limits(&self) -> Met {
        let stations = self.sweep.grid.simulator.stations.len();
        let any = |is: &dyn Fn(&Closed, &DcBreaker) -> bool| {
            self.closed.iter().any(|c| {
                let mut breakers = self.sweep.breakers_at_an_end(c.case);
                breakers.any(|b| is(c, b))
            })
        };
        let ka = |c: &Closed| c.after.clearing_ka;
        let mj = |c: &Closed| c.after.variables.energy_mj;
        let cleared = |c: &Closed| c.clearing_step.is_some() && ka(c) > 0.0;
        let tells = |c: &Closed, b: &DcBreaker| {
            mj(c) > b.energy_absorption_mj || (cleared(c) && ka(c) > b.max_breaking_current_ka)
        };
        vec![
            (
                "a current as high as a breaker bears",
                any(&|c, b| cleared(c) && ka(c) == b.max_breaking_current_ka),
            ),
            (
                "a current one double higher",
                any(&|c, b| cleared(c) && ka(c) == b.max_breaking_current_ka.next_up()),
            ),
            (
                "an energy as high as a breaker bears",
                any(&|c, b| mj(c) > 0.0 && mj(c) == b.energy_absorption_mj),
            ),
            (
                "an energy one double higher",
                any(&|c, b| mj(c) > 0.0 && mj(c) == b.energy_absorption_mj.next_up()),
            ),
            (
                "a current that the peak alone exceeds",
                any(&|c, b| {
                    let limit = b.max_breaking_current_ka;
                    cleared(c) && ka(c) <= limit && c.after.variables.peak_fault_ka > limit
                }),
            ),
            (
                "a current that no clearing step had",
                any(&|c, b| {
                    let peak = c.after.variables.peak_fault_ka;
                    c.clearing_step.is_none() && peak > b.max_breaking_current_ka
                }),
            ),
            (
                "a breaker at an end past the count, which tells",
                any(&|c, b| b.station_id >= stations && tells(c, b)),
            ),
            (
                "a breaker at the first end alone, which tells",
                any(&|c, b| b.station_id != self.sweep.cable(c.case).to_station && tells(c, b)),
            ),
            (
                "a breaker at the second end alone, which tells",
                any(&|c, b| b.station_id != self.sweep.cable(c.case).from_station && tells(c, b)),
            ),
            (
                "a breaker at the last station, past which the end is",
                self.closed.iter().any(|c| self.is_cut(c)),
            ),
            (
                "breakers, none of them at an end",
                self.closed.iter().any(|c| {
                    let some = !self.sweep.grid.simulator.breakers.is_empty();
                    some && self.sweep.breakers_at_an_end(c.case).next().is_none()
                }),
            ),
        ]
    }

    /// Whether a breaker would tell if an end past the count were cut to the last station, and none does as it is.
    fn is_cut(&self, c: &Closed) -> bool {
        let simulator = &self.sweep.grid.simulator;
        let last = simulator.stations.len() - 1;
        let cable = self.sweep.cable(c.case);
        let is_past = cable.from_station > last || cable.to_station > last;
        let ends = [cable.from_station, cable.to_station];
        let mj = c.after.variables.energy_mj;
        let mut breakers = simulator.breakers.iter();
        let would = breakers.any(|b| b.station_id == last && mj > b.energy_absorption_mj);
        is_past && !ends.contains(&last) && would && c.reasons & 4 == 0
    }

    /// What the calls left open.
    fn open(&self) -> Met {
        let made = self.steps.in_the_open_case();
        let is_left = self.steps.made < self.steps.all();
        let [detected, clearing_ka, ..] = self.open[..] else {
            panic!("an open case has more numbers");
        };
        let [cleared, active] = [self.open[5], self.open[9]].map(|x| x == 1);
        let recovery_ms = double(self.open[7]);
        let state = || self.open[10..].iter().map(|&x| double(x));
        vec![
            ("no case left", !is_left),
            (
                "no step of the open case made, after others",
                is_left && made == 0 && self.steps.made > 0,
            ),
            ("left before the inception", made > 0 && !active),
            ("left while the fault lasts", made > 0 && active && !cleared),
            ("left after the clearing", made > 0 && cleared),
            (
                "left before the last of several steps",
                made > 0 && made == self.sweep.steps() - 1,
            ),
            ("left, and detected", detected == 1),
            ("left, detected and not cleared", detected == 1 && !cleared),
            ("left, and cleared undetected", detected == 0 && cleared),
            (
                "left with a clearing step's current",
                double(clearing_ka) > 0.0,
            ),
            (
                "left, and recovered",
                made > 0 && recovery_ms < self.sweep.grid.simulator.duration_ms,
            ),
            ("left in a later case", made > 0 && self.steps.case() > 0),
            (
                "left with a NaN or an infinity",
                made > 0 && state().any(|x| !x.is_finite()),
            ),
        ]
    }
}

/// The sums of reasons that there are, and none.
const REASONS: [(&str, u64); 12] = [
    ("a case without reasons", 0),
    ("a case not cleared, and nothing else", 1),
    ("a current too high, and nothing else", 2),
    ("an energy too high, and nothing else", 4),
    ("a case not detected, and nothing else", 8),
    ("not cleared, and an energy too high", 1 + 4),
    ("not cleared, and not detected", 1 + 8),
    ("a current and an energy too high", 2 + 4),
    ("a current too high, and not detected", 2 + 8),
    ("an energy too high, and not detected", 4 + 8),
    ("not cleared, an energy too high, not detected", 1 + 4 + 8),
    ("a current and an energy too high, not detected", 2 + 4 + 8),
];

#[derive(Default)]
pub struct Sweeps(Counts);

impl Sweeps {
    /// Adds an accepted sweep with its answer.
    pub fn add(&mut self, job: &[u64], answer: &[u64]) {
        let advanced = Advanced::read(job, answer);
        let mut met = advanced.sizes();
        met.extend(advanced.portions());
        met.extend(advanced.cases());
        met.extend(advanced.limits());
        met.extend(advanced.open());
        self.0.add(met);
    }

    /// What was counted, each with its name.
    pub fn counted(&self) -> impl Iterator<Item = (&'static str, u64)> + '_ {
        self.0.kinds.iter().copied()
    }
}

impl fmt::Display for Sweeps {
    fn fmt(&self, f: &mut fmt::Formatter) -> fmt::Result {
        write_counted(f, self.0.all, "accepted sweeps", self.counted())
    }
}

/// Kept sweeps, also those that are refused.
#[derive(Default)]
pub struct KeptSweeps(Counts);

impl KeptSweeps {
    /// Adds a kept sweep with its answer.
    pub fn add(&mut self, job: &[u64], answer: &[u64]) {
        let numbers = &mut job[1..].iter().copied();
        let grid = grids::grid(numbers).expect("a whole job");
        let order = grids::order(numbers).expect("a whole job");
        let [case, made] = [0; 2].map(|_| numbers.next().expect("a whole job"));
        let rule = rules::kept_sweep(&grid, &order);
        let unsolved = rule == 0 && rules::sweep(&grid, &order) == 10;
        let n = crate::dc_switching::total_steps(&grid.simulator) as u64;
        let all = if rule == 0 {
            cases(&grid, &order).len() as u64
        } else {
            0
        };
        let kept = answer[0] != REFUSED;
        let open = kept && case < all;
        let mut met = vec![
            (
                "the first case, no step made",
                open && case == 0 && made == 0,
            ),
            ("a later case, no step made", open && case > 0 && made == 0),
            ("some steps made", open && made > 0 && made < n - 1),
            ("one step left", open && n > 1 && made == n - 1),
            ("the last case open", open && case == all - 1),
            ("no case left", kept && case == all),
            ("a flow that has not converged", kept && unsolved),
            (
                "as many steps made as a case has",
                rule == 0 && case < all && made == n,
            ),
            ("more steps made", rule == 0 && case < all && made > n),
            (
                "one case too many",
                rule == 0 && case == all + 1 && made == 0,
            ),
            ("more cases too many", rule == 0 && case > all + 1),
            (
                "no case left, and steps made",
                rule == 0 && case == all && made > 0 && made < n,
            ),
            (
                "no case left, and as many steps made as a case has",
                rule == 0 && case == all && made >= n,
            ),
        ];
        let by_rule = RULES.into_iter().zip(1..);
        met.extend(by_rule.map(|(name, number)| (name, rule == number && case == 0 && made == 0)));
        self.0.add(met);
    }

    /// What was counted, each with its name.
    pub fn counted(&self) -> impl Iterator<Item = (&'static str, u64)> + '_ {
        self.0.kinds.iter().copied()
    }
}

const RULES: [&str; 9] = [
    "rule 1 alone",
    "rule 2 alone",
    "rule 3 alone",
    "rule 4 alone",
    "rule 5 alone",
    "rule 6 alone",
    "rule 7 alone",
    "rule 8 alone",
    "rule 9 alone",
];

impl fmt::Display for KeptSweeps {
    fn fmt(&self, f: &mut fmt::Formatter) -> fmt::Result {
        write_counted(f, self.0.all, "kept sweeps", self.counted())
    }
}
