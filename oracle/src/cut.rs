//! A job cut down to its smallest: fewer steps, calls, stations, cables and breakers, and numbers that are 0, 1 or short, as long as it is
//! still one that is looked for.

use crate::dc_switching::{time_step_ms, total_steps};
use crate::grids::{self, Grid, BREAKERS, CABLES, STATIONS};
use crate::jobs::{
    has_grid, has_order, runs, DETECTION, FAULT_RUN, STEP, SWEEP, SWITCHING_RUN, TIMED_FAULT_RUN,
};
use crate::rules;
use std::ops::Range;

/// After so many jobs that were tried the cut ends.
const MOST_TRIES: usize = 20_000;

/// The largest number that is taken as a whole one, and not as a double's bits.
const MOST_WHOLE: u64 = 1 << 32;

/// No run and no case has more.
const MOST_STEPS: u64 = rules::MOST_STEPS as u64;

/// Where a job has its duration.
const DURATION: usize = 2;

/// The smallest job that is found of which `differs` still says so. It is asked about jobs that are whole, and that have no more to simulate
/// than the one before.
pub fn cut_down(job: &[u64], differs: impl FnMut(&[u64]) -> bool) -> Vec<u64> {
    let mut cut = Cut {
        job: job.to_vec(),
        tries: 0,
        differs,
    };
    loop {
        let before = cut.job.clone();
        cut.fewer_steps();
        cut.fewer_tenths();
        cut.one_call();
        cut.fewer_rows();
        cut.simpler_numbers();
        if cut.job == before {
            return cut.job;
        }
    }
}

struct Cut<F> {
    job: Vec<u64>,
    tries: usize,
    differs: F,
}

impl<F: FnMut(&[u64]) -> bool> Cut<F> {
    /// Goes on with the other job, if it still differs.
    fn take(&mut self, other: Vec<u64>) -> bool {
        if other == self.job || self.tries == MOST_TRIES || work(&other) > work(&self.job) {
            return false;
        }
        self.tries += 1;
        let taken = (self.differs)(&other);
        if taken {
            self.job = other;
        }
        taken
    }

    fn with(&self, at: usize, number: u64) -> Vec<u64> {
        let mut other = self.job.clone();
        other[at] = number;
        other
    }

    /// A duration of 1, 2, 4 steps and so on, below those that there are.
    fn fewer_steps(&mut self) {
        let Some(grid) = grid(&self.job) else {
            return;
        };
        let all = total_steps(&grid.simulator) as u64;
        let doubled = (0..20).map(|k| 1u64 << k).take_while(|&steps| steps < all);
        for steps in doubled {
            let duration_ms = steps as f64 * time_step_ms(&grid.simulator);
            if self.take(self.with(DURATION, duration_ms.to_bits())) {
                return;
            }
        }
    }

    /// Of a sweep the highest tenth alone, or the lowest.
    fn fewer_tenths(&mut self) {
        if has_order(self.job[0]) {
            let [low, high] = [2, 3].map(|column| order_at(&self.job) + column);
            self.take(self.with(low, self.job[high]));
            self.take(self.with(high, self.job[low]));
        }
    }

    /// One call in the place of several, with allowance and memory enough for most.
    fn one_call(&mut self) {
        if let Some(calls) = lists(&self.job).get(3).filter(|calls| calls.rows > 1) {
            let mut other = calls.without(&self.job, 1..calls.rows);
            let (first, _) = calls.places[0];
            other[first..].copy_from_slice(&[MOST_STEPS, runs::MOST_SPACE]);
            self.take(other);
        }
    }

    /// Leaves out all rows of a list, then halves, and so on down to each row.
    fn fewer_rows(&mut self) {
        for k in (0..lists(&self.job).len()).rev() {
            // A count that says more than there are.
            self.take(lists(&self.job)[k].without(&self.job, 0..0));
            let mut run = lists(&self.job)[k].rows;
            while run > 0 {
                let mut at = 0;
                while at < lists(&self.job)[k].rows {
                    let list = &lists(&self.job)[k];
                    let gone = at..(at + run).min(list.rows);
                    if !self.take(list.without(&self.job, gone)) {
                        at += run;
                    }
                }
                run /= 2;
            }
        }
    }

    /// Every number but the job's own and the lengths of lists.
    fn simpler_numbers(&mut self) {
        let lists = lists(&self.job);
        for at in 1..self.job.len() {
            if lists.iter().any(|list| list.count == at) {
                continue;
            }
            let taken = |cut: &mut Self| {
                let mut simpler = simpler(cut.job[at]).into_iter();
                simpler.any(|n| cut.take(cut.with(at, n)))
            };
            while taken(self) {}
        }
    }
}

/// What stands for a number, the simplest first: 0, 1; of a whole number half of it and one less, of a double one of one digit, and one of three.
fn simpler(n: u64) -> Vec<u64> {
    let one = 1f64.to_bits();
    let mut simpler = match n {
        u64::MAX => vec![0, 1, MOST_STEPS],
        _ if n <= MOST_WHOLE => vec![0, 1, n / 2, n.saturating_sub(1)],
        _ => {
            let x = f64::from_bits(n);
            let short = [0, 2].map(|places| format!("{x:.places$e}").parse());
            let short = short.map(|x| x.map_or(n, f64::to_bits));
            vec![0, one, short[0], short[1]]
        }
    };
    // Of 0 there is nothing simpler, and of 1 just 0.
    let own = simpler.iter().position(|&other| other == n);
    simpler.truncate(own.unwrap_or(simpler.len()));
    simpler
}

/// How much there is to simulate: the steps, and in a sweep those of all cases.
fn work(job: &[u64]) -> u64 {
    let Some(grid) = grid(job) else {
        return 0;
    };
    let steps = (total_steps(&grid.simulator) as u64).min(MOST_STEPS + 1);
    if !has_order(job[0]) {
        return steps;
    }
    let [low, high] = [2, 3].map(|column| job[order_at(job) + column]);
    let tenths = high.saturating_sub(low).saturating_add(1);
    let cases = tenths.saturating_mul(3 * grid.simulator.cables.len() as u64);
    steps.saturating_mul(cases)
}

/// Where a sweep has its order: behind its breakers.
fn order_at(job: &[u64]) -> usize {
    let breakers = &lists(job)[2];
    let (first, width) = breakers.places[0];
    first + breakers.rows * width
}

/// The grid of a job, if it has one.
fn grid(job: &[u64]) -> Option<Grid> {
    has_grid(job[0]).then(|| grids::grid_of(job[0], &mut job[1..].iter().copied()))?
}

/// A list inside a job.
struct List {
    /// Where its length stands, in front of all its rows.
    count: usize,
    rows: usize,
    /// Where rows begin, and how many numbers a row has there. Of a station or a cable a state has a number too.
    places: Vec<(usize, usize)>,
}

impl List {
    /// The job without some of the rows, and with their number in the place of the count.
    fn without(&self, job: &[u64], gone: Range<usize>) -> Vec<u64> {
        let is_gone = |at: usize| {
            let mut places = self.places.iter();
            places.any(|&(first, width)| {
                (first + gone.start * width..first + gone.end * width).contains(&at)
            })
        };
        let kept = (0..job.len()).filter(|&at| !is_gone(at));
        let mut fewer: Vec<u64> = kept.map(|at| job[at]).collect();
        fewer[self.count] = (self.rows - gone.len()) as u64;
        fewer
    }
}

/// The lists of a job: stations, cables and breakers of its grid, and its calls.
fn lists(job: &[u64]) -> Vec<List> {
    let number = job[0];
    if !has_grid(number) {
        return Vec::new();
    }
    let counts = if number == TIMED_FAULT_RUN { 5 } else { 3 };
    let mut at = counts + 3;
    let mut lists = Vec::new();
    for (count, (most, width)) in (counts..).zip([(STATIONS, 11), (CABLES, 7), (BREAKERS, 7)]) {
        let rows = job[count].min(most) as usize;
        lists.push(List {
            count,
            rows,
            places: vec![(at, width)],
        });
        at += rows * width;
    }
    let [stations, cables] = [lists[0].rows, lists[1].rows];
    let states = match number {
        // Of each of two the time too.
        DETECTION => vec![at + 1, at + 2 + stations + cables],
        STEP => vec![at + 7],
        _ => Vec::new(),
    };
    for first in states {
        lists[0].places.push((first, 1));
        lists[1].places.push((first + stations, 1));
    }
    let calls = match number {
        FAULT_RUN | TIMED_FAULT_RUN => Some(at + 5),
        SWITCHING_RUN => Some(at + 2),
        SWEEP => Some(at + 4),
        _ => None,
    };
    lists.extend(calls.map(|count| List {
        count,
        rows: job[count] as usize,
        places: vec![(count + 1, 2)],
    }));
    lists
}

#[cfg(test)]
mod tests {
    use super::*;
    use crate::draw::{self, Random};
    use crate::jobs::{answer, before_refusal, FLOATS, FLOW, GRID_JOBS, PRINTED};
    use crate::plan::MMC;
    use crate::sample;

    fn right(job: &[u64]) -> Vec<u64> {
        let mut output = Vec::new();
        answer(&mut job.iter().copied(), &mut output).expect("a whole job");
        output
    }

    /// The first drawn job that a wrong answerer answers differently, cut down; and what it then answers.
    fn cut(number: u64, wrong: impl Fn(&[u64]) -> Vec<u64>) -> (Vec<u64>, Vec<u64>) {
        let mut random = Random::new(1);
        let differs = |job: &[u64]| right(job) != wrong(job);
        let job = loop {
            let job = draw::job(number, &mut random).numbers;
            if differs(&job) {
                break job;
            }
        };
        let small = cut_down(&job, differs);
        assert!(differs(&small));
        assert!(small.len() <= job.len());
        let given = wrong(&small);
        (small, given)
    }

    fn rows(job: &[u64]) -> Vec<usize> {
        lists(job).iter().map(|list| list.rows).collect()
    }

    /// The total loss is wrong where the last station is an MMC.
    #[test]
    fn wrong_flow() {
        let (small, _) = cut(FLOW, |job| {
            let mut answer = right(job);
            let stations = &lists(job)[0];
            let last = 6 + 11 * stations.rows.saturating_sub(1);
            if answer[0] == 0 && job[last] == MMC {
                answer[3] ^= 1;
            }
            answer
        });
        assert_eq!(rows(&small), [1, 0, 0]);
        // All else is 0 or 1, but for what no rule lets be 0.
        let others = small[6..]
            .iter()
            .filter(|&&n| n != 0 && n != 1f64.to_bits());
        assert_eq!(others.collect::<Vec<_>>(), [&MMC], "{small:?}");
    }

    /// The time of the fifth record is wrong.
    #[test]
    fn wrong_runs() {
        for number in [FAULT_RUN, SWITCHING_RUN, TIMED_FAULT_RUN] {
            let (small, given) = cut(number, |job| {
                let mut answer = right(job);
                let before = before_refusal(number);
                let names = crate::names::names(job, &answer);
                let fifth = |name: &String| name.ends_with("time of record 5");
                if let Some(at) = names.iter().position(fifth) {
                    answer[at] ^= 1;
                }
                assert!(answer.len() > before);
                answer
            });
            let cables = usize::from(number != SWITCHING_RUN);
            assert_eq!(rows(&small), [1, cables, 0, 1], "{small:?}");
            // A call that makes five or more steps, of eight at most.
            let call = before_refusal(number) + 1;
            assert!(given[call + 1] <= 8, "{given:?}");
        }
    }

    /// The answer ends where the first row of a call is one of tenth 7.
    #[test]
    fn wrong_sweep() {
        let (small, _) = cut(SWEEP, |job| {
            let mut answer = right(job);
            let names = crate::names::names(job, &answer);
            let wrong = (0..answer.len())
                .find(|&at| names[at].ends_with("tenth of row 1") && answer[at] == 7);
            if let Some(at) = wrong {
                answer.truncate(at);
            }
            answer
        });
        assert_eq!(rows(&small), [1, 1, 0, 1], "{small:?}");
        let order = small.len() - 7;
        assert_eq!(small[order + 2..order + 4], [7, 7]);
    }

    /// E is wrong below -2.
    #[test]
    fn wrong_float() {
        let (small, _) = cut(FLOATS, |job| {
            let mut answer = right(job);
            if job[1] == 1 && f64::from_bits(job[2]) < -2.0 {
                answer[0] ^= 1;
            }
            answer
        });
        let [_, operation, a, b] = small[..] else {
            panic!("{small:?}");
        };
        assert_eq!([operation, b], [1, 0]);
        let a = f64::from_bits(a);
        assert_eq!(a, format!("{a:.0e}").parse().unwrap());
    }

    /// The last bytes of what is printed are wrong from 1000 on.
    #[test]
    fn wrong_printed_value() {
        let (small, _) = cut(PRINTED, |job| {
            let mut answer = right(job);
            if f64::from_bits(job[1]) >= 1000.0 {
                answer[2] ^= 1;
            }
            answer
        });
        let [_, x] = small[..] else {
            panic!("{small:?}");
        };
        let x = f64::from_bits(x);
        assert_eq!(x, format!("{x:.0e}").parse().unwrap());
    }

    /// Without any of its rows a job is still whole, and no number is left over.
    #[test]
    fn rows_of_all_jobs() {
        let mut random = Random::new(1);
        let drawn = GRID_JOBS.iter().cycle().take(700);
        let drawn: Vec<_> = drawn
            .map(|&(n, _)| draw::job(n, &mut random).numbers)
            .collect();
        for job in sample::jobs().into_iter().chain(drawn) {
            for (k, list) in lists(&job).iter().enumerate() {
                for row in [0, list.rows / 2, list.rows.saturating_sub(1)] {
                    let gone = row.min(list.rows)..(row + 1).min(list.rows);
                    let left = list.rows - gone.len();
                    let fewer = list.without(&job, gone);
                    assert_eq!(lists(&fewer)[k].rows, left);
                    // Without a time step what is read is the same, and no run is made.
                    let mut refused = fewer;
                    refused[1] = u64::MAX;
                    let mut input = refused.into_iter();
                    answer(&mut input, &mut Vec::new()).expect("a whole job");
                    assert_eq!(input.next(), None);
                }
            }
        }
    }
}
