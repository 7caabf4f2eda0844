//! What random jobs on grids met: their answers, the values at the ends of what the rules accept, and the kinds of what was
//! accepted; and the kinds of printed values.

mod circuits;
mod detections;
mod flows;
mod points;
mod printed;
mod runs;
mod steps;
mod sweeps;

pub use circuits::Circuits;
pub use detections::Detections;
pub use flows::Flows;
pub use points::Points;
pub use printed::Printed;
pub use runs::{FaultRuns, KeptRuns, SwitchingRuns, TimedFaultRuns};
pub use steps::Steps;
pub use sweeps::{KeptSweeps, Sweeps};

use crate::draw::Drawn;
use crate::jobs::runs::REFUSED;
use crate::jobs::{
    before_refusal, is_kept, is_point, CIRCUIT, DETECTION, FAULT_RUN, FLOW, GRID_JOBS, KEPT_SWEEP,
    PRINTED, STEP, SWEEP, SWITCHING_RUN, TIMED_FAULT_RUN, TIMES,
};
use crate::plan::End;
use crate::rules;
use std::collections::BTreeMap;
use std::fmt;

#[derive(Default)]
pub struct Tally {
    answers: BTreeMap<(u64, u64), u64>,
    ends: BTreeMap<(u64, &'static str, End), u64>,
    kinds: Kinds,
}

/// The kinds of what no rule refused, study by study; of kept runs and sweeps also those that were refused.
#[derive(Default)]
pub struct Kinds {
    pub flows: Flows,
    pub points: Points,
    pub fault_runs: FaultRuns,
    pub timed_fault_runs: TimedFaultRuns,
    pub switching_runs: SwitchingRuns,
    pub kept_runs: KeptRuns,
    pub sweeps: Sweeps,
    pub kept_sweeps: KeptSweeps,
    pub detections: Detections,
    pub steps: Steps,
    pub circuits: Circuits,
    pub printed: Printed,
}

impl Kinds {
    /// Adds a job with its answer.
    pub fn add(&mut self, job: &[u64], answer: &[u64]) {
        match job[0] {
            KEPT_SWEEP => self.kept_sweeps.add(job, answer),
            number if is_kept(number) => self.kept_runs.add(job, answer),
            TIMES => {}
            PRINTED => self.printed.add(job),
            number if answer[before_refusal(number)] != 0 => {}
            FLOW => self.flows.add(job, answer),
            number if is_point(number) => self.points.add(answer),
            FAULT_RUN => self.fault_runs.add(job, answer),
            TIMED_FAULT_RUN => self
                .timed_fault_runs
                .add(job, &answer[before_refusal(job[0])..]),
            SWITCHING_RUN => self.switching_runs.add(job, answer),
            SWEEP => self.sweeps.add(job, answer),
            DETECTION => self.detections.add(job, answer),
            STEP => self.steps.add(job, answer),
            CIRCUIT => self.circuits.add(job, answer),
            _ => {}
        }
    }

    /// What was counted, each with its name.
    pub fn counted(&self) -> Vec<(&'static str, u64)> {
        let mut all = self.flows.counted().to_vec();
        all.extend(self.points.counted());
        all.extend(self.fault_runs.counted());
        all.extend(self.timed_fault_runs.counted());
        all.extend(self.switching_runs.counted());
        all.extend(self.kept_runs.counted());
        all.extend(self.sweeps.counted());
        all.extend(self.kept_sweeps.counted());
        all.extend(self.detections.counted());
        all.extend(self.steps.counted());
        all.extend(self.circuits.counted());
        all.extend(self.printed.counted());
        all
    }
}

/// How many there were, and how many of each kind.
#[derive(Default)]
struct Counts {
    all: u64,
    kinds: Vec<(&'static str, u64)>,
}

impl Counts {
    /// Adds one more, which is of these kinds or not; the names are the same each time.
    fn add(&mut self, met: Vec<(&'static str, bool)>) {
        self.all += 1;
        if self.kinds.is_empty() {
            self.kinds = met.iter().map(|&(name, _)| (name, 0)).collect();
        }
        for ((_, count), (_, met)) in self.kinds.iter_mut().zip(met) {
            *count += u64::from(met);
        }
    }
}

/// How many of `what` there were, and of which kinds; nothing if there were none.
fn write_counted(
    f: &mut fmt::Formatter,
    all: u64,
    what: &str,
    counted: impl IntoIterator<Item = (&'static str, u64)>,
) -> fmt::Result {
    if all == 0 {
        return Ok(());
    }
    writeln!(f, "\n{all} {what}, with")?;
    for (name, count) in counted {
        writeln!(f, "  {count:>7} {name}")?;
    }
    Ok(())
}

impl fmt::Display for Kinds {
    fn fmt(&self, f: &mut fmt::Formatter) -> fmt::Result {
        write!(f, "{}{}", self.flows, self.points)?;
        write!(f, "{}{}", self.fault_runs, self.switching_runs)?;
        write!(f, "{}{}", self.timed_fault_runs, self.kept_runs)?;
        write!(f, "{}{}", self.sweeps, self.kept_sweeps)?;
        write!(f, "{}{}{}", self.detections, self.steps, self.circuits)?;
        write!(f, "{}", self.printed)
    }
}

impl Tally {
    /// Adds a job on a grid, or a printed value, with its answer.
    pub fn add(&mut self, job: &Drawn, numbers: &[u64]) {
        let number = job.numbers[0];
        // Nothing is refused.
        if number == PRINTED {
            return self.kinds.add(&job.numbers, numbers);
        }
        let answer = match numbers[before_refusal(number)] {
            _ if number == TIMES => 0,
            stop if is_kept(number) && stop != REFUSED => 0,
            refusal => refusal,
        };
        *self.answers.entry((number, answer)).or_default() += 1;
        self.kinds.add(&job.numbers, numbers);
        // The answer does not say which rule refuses a kept run or sweep.
        if number == TIMES || is_kept(number) {
            return;
        }
        let checked = rules::checked(number);
        for put in &job.put {
            let asked = if put.end.is_accepted() { 0 } else { put.rule };
            if checked.contains(&put.rule) && answer == asked {
                *self.ends.entry((put.rule, put.field, put.end)).or_default() += 1;
            }
        }
    }

    pub fn is_empty(&self) -> bool {
        self.answers.is_empty() && self.kinds.printed.all() == 0
    }
}

/// Accepted, or refused by one of these rules.
const ANSWERS: [u64; 12] = [0, 1, 2, 3, 4, 5, 6, 7, 8, 9, 10, REFUSED];

impl fmt::Display for Tally {
    fn fmt(&self, f: &mut fmt::Formatter) -> fmt::Result {
        if !self.answers.is_empty() {
            self.write_answers(f)?;
        }
        write!(f, "{}", self.kinds)
    }
}

impl Tally {
    /// Of jobs on grids.
    fn write_answers(&self, f: &mut fmt::Formatter) -> fmt::Result {
        writeln!(f, "Jobs by their answer, 0 or the rule that refuses:")?;
        write!(f, "{:<28}", "")?;
        for rule in ANSWERS {
            write!(f, "{rule:>7}")?;
        }
        for (number, name) in GRID_JOBS {
            write!(f, "\n{number:>4} {name:<23}")?;
            for rule in ANSWERS {
                write!(f, "{:>7}", self.answers.get(&(number, rule)).unwrap_or(&0))?;
            }
        }
        write!(f, "\n{:<28}", "all")?;
        for rule in ANSWERS {
            let all: u64 = GRID_JOBS
                .iter()
                .filter_map(|&(number, _)| self.answers.get(&(number, rule)))
                .sum();
            write!(f, "{all:>7}")?;
        }
        write!(
            f,
            "\n\nJobs accepted with a field at its lowest or highest value, and jobs that its rule refused for another:\n{:<28}",
            "rule, field"
        )?;
        for end in End::ALL {
            write!(f, "{:>7}", end.name())?;
        }
        let mut fields: Vec<(u64, &str)> =
            self.ends.keys().map(|&(r, name, _)| (r, name)).collect();
        fields.dedup();
        for (rule, name) in fields {
            write!(f, "\n{rule:>4} {name:<23}")?;
            for end in End::ALL {
                match self.ends.get(&(rule, name, end)) {
                    Some(n) => write!(f, "{n:>7}")?,
                    None => write!(f, "{:>7}", "")?,
                }
            }
        }
        writeln!(f)
    }
}
