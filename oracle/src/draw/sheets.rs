//! Sheets drawn at random: well-formed ones, in which up to three rules are aimed at, and damaged ones. The sweeps are short, so that a
//! program can be started for each of them.

mod damages;

pub use damages::every_edit;

use super::grids::times_at_most_steps;
use super::runs::{put_breakers, set_moments};
use super::sweeps::{parts, set_breakers_beside_a_case, sweep_plan};
use super::Random;
use crate::grids::{BREAKERS, CABLES, STATIONS};
use crate::jobs::SWEEP;
use crate::plan::{Accepted, Plan, MECHANICAL, MMC};
use crate::rules::{self, Range, LAST_NUMBER, LAST_TENTH, RATED_MW};
use crate::sheets::{self, Form, FORMS, PLACES, WIDTH};

/// A sheet, and what was done to it.
pub struct Sheet {
    pub bytes: Vec<u8>,
    pub damages: Vec<&'static str>,
}

/// The most work of a sweep: steps of all cases, times stations, times cables.
const MOST_WORK: u64 = 20_000_000;

/// The most that twelve columns hold.
const MOST: u64 = 999_999_999_999;

pub fn sheet(damaged: bool, random: &mut Random) -> Sheet {
    loop {
        let plan = plan(random);
        let mut lines = lines(&plan, random);
        let damages = if damaged {
            damages::damage(&mut lines, random)
        } else {
            Vec::new()
        };
        let bytes = lines.concat();
        if is_quick(&bytes) {
            return Sheet { bytes, damages };
        }
    }
}

/// Whether the sheet is refused, or its sweep takes little time.
pub fn is_quick(sheet: &[u8]) -> bool {
    sheets::read(sheet).map_or(true, |sweep| {
        let parts = sweep.grid.n_stations * sweep.grid.n_cables;
        sweep.cases.len() as u64 * sweep.steps() * parts <= MOST_WORK
    })
}

fn plan(random: &mut Random) -> Plan {
    let any = [1 + random.below(STATIONS), 1 + random.below(CABLES)];
    let few = parts(random);
    let parts = random.pick(&[any, few, few]);
    let mut plan = sweep_plan(SWEEP, parts, false, random);
    if random.below(8) == 0 {
        let breakers = random.below(BREAKERS + 1);
        put_breakers(&mut plan, breakers, random);
        set_moments(&mut plan, random);
    }
    keep_to_columns(&mut plan, random);
    set_breakers_beside_a_case(&mut plan, random);
    keep_to_columns(&mut plan, random);
    // Often the next rule too, since the order decides then.
    let rules = rules::checked(SWEEP);
    let some = |random: &mut Random| random.below(rules.len() as u64) as usize;
    let mut at = some(random);
    for _ in 0..random.pick(&[0, 0, 0, 1, 1, 2, 2, 3]) {
        aim_at(rules[at % rules.len()], &mut plan, random);
        let any = some(random);
        at = random.pick(&[at + 1, any]);
    }
    plan
}

/// Gives each double the nearest value that a field can have, at times one of fewer places, and none to a number that must be 0.
fn keep_to_columns(plan: &mut Plan, random: &mut Random) {
    for station in plan.stations.iter_mut().filter(|s| s[0] != MMC) {
        station[1] = 0;
    }
    for breaker in plan.breakers.iter_mut().filter(|b| b[2] == MECHANICAL) {
        breaker[4] = 0;
    }
    for field in plan.fields() {
        if let Accepted::Doubles(_) = field.accepted {
            let of_a_part = field.rule == 7 || field.rule == 8;
            let places = match random.below(4) {
                0 if of_a_part => random.below(PLACES as u64) as usize,
                _ => PLACES,
            };
            let text = fitting(f64::from_bits(plan.number(&field)), places);
            let x: f64 = text.parse().expect("a number");
            plan.set(&field, x.to_bits());
        }
    }
}

/// A number of 0 or more with that many places, or as many as there are columns for.
fn fitting(x: f64, places: usize) -> String {
    let x = x.abs();
    let texts = (0..=places).rev().map(|places| format!("{x:.places$}"));
    let mut fit = texts.filter(|text| text.len() <= WIDTH);
    fit.next().expect("a number of twelve digits or fewer")
}

/// Breaks a rule, or sets what it looks at to an end of what it accepts.
fn aim_at(rule: u64, plan: &mut Plan, random: &mut Random) {
    let special = random.below(3) == 0;
    match rule {
        1 => plan.stations.clear(),
        2 => plan.cables.clear(),
        3 => set_a_count(plan, random),
        5 => plan.times = times_at_most_steps(random),
        6 if special => set_topology(plan, random),
        8 if special => set_kind(plan, random),
        9 if special => {
            let tenths = [(); 2].map(|_| random.below(LAST_TENTH + 2));
            plan.event[2..].copy_from_slice(&tenths);
        }
        10 => plan
            .stations
            .iter_mut()
            .for_each(|station| station[4] = RATED_MW.high.to_bits()),
        _ => set_an_end(plan, rule, random),
    }
}

/// As many parts as there is room for, one more, or some more.
fn set_a_count(plan: &mut Plan, random: &mut Random) {
    let more = random.below(40);
    let more = random.pick(&[0, 0, 1, 1, more]);
    match random.below(3) {
        0 => fill(&mut plan.stations, STATIONS + more),
        1 => fill(&mut plan.cables, CABLES + more),
        _ => fill(&mut plan.breakers, BREAKERS + more),
    }
}

fn fill<const FIELDS: usize>(parts: &mut Vec<[u64; FIELDS]>, n: u64) {
    let part = parts.first().copied().unwrap_or([0; FIELDS]);
    parts.resize(n as usize, part);
}

fn some_of<'a, T>(parts: &'a mut [T], random: &mut Random) -> Option<&'a mut T> {
    let at = random.below(parts.len().max(1) as u64) as usize;
    parts.get_mut(at)
}

/// An unknown topology, or submodules, which only an MMC has.
fn set_topology(plan: &mut Plan, random: &mut Random) {
    if let Some(station) = some_of(&mut plan.stations, random) {
        match random.below(2) {
            0 => station[0] = random.pick(&[4, 5, 256, MOST]),
            _ => station[1] = random.pick(&[1, 200, LAST_NUMBER]),
        }
    }
}

/// An unknown kind, or a second number, which a mechanical breaker does not have.
fn set_kind(plan: &mut Plan, random: &mut Random) {
    if let Some(breaker) = some_of(&mut plan.breakers, random) {
        match random.below(2) {
            0 => breaker[2] = random.pick(&[3, 4, 256, MOST]),
            _ => breaker[4] = random.pick(&[1e-6, 1.0, 100.0f64]).to_bits(),
        }
    }
}

/// Sets one of the rule's fields to an end, beside it or far outside, if there is such a field.
fn set_an_end(plan: &mut Plan, rule: u64, random: &mut Random) {
    let mut fields = plan.fields();
    fields.retain(|field| field.rule == rule);
    if let Some(&mut field) = some_of(&mut fields, random) {
        let number = match field.accepted {
            Accepted::Doubles(range) => beside(range, random).to_bits(),
            Accepted::Numbers(last) => {
                random.pick(&[0, last, last, last + 1, last + 1, 1 << 16, 1 << 32, MOST])
            }
        };
        plan.set(&field, number);
    }
}

/// An end of the range, or the next number before or after it that the columns hold.
fn beside(range: Range, random: &mut Random) -> f64 {
    let Range { low, high } = range;
    let digits = format!("{high:.0}").len();
    let places = (WIDTH - 1 - digits).min(PLACES) as i32;
    let step = 10f64.powi(-places);
    random.pick(&[
        low,
        (low - step).max(0.0),
        low + step,
        high,
        high - step,
        high + step,
        high + step,
        MOST as f64,
    ])
}

fn lines(plan: &Plan, random: &mut Random) -> Vec<Vec<u8>> {
    let [times, order, station, cable, breaker] = &FORMS;
    let mut lines = vec![
        line(times, &plan.times, random),
        line(order, &plan.event, random),
    ];
    lines.extend(plan.stations.iter().map(|s| line(station, s, random)));
    lines.extend(plan.cables.iter().map(|c| line(cable, c, random)));
    lines.extend(plan.breakers.iter().map(|b| line(breaker, b, random)));
    lines
}

fn line(form: &Form, fields: &[u64], random: &mut Random) -> Vec<u8> {
    let mut line = vec![form.letter];
    for (i, &field) in fields.iter().enumerate() {
        let text = if form.whole.contains(&i) {
            field.to_string()
        } else {
            decimal(f64::from_bits(field), random)
        };
        // At times zeros before it.
        let zeros = match random.below(16) {
            0 => random.below(WIDTH as u64 + 1) as usize,
            _ => 0,
        };
        let text = format!("{text:0>zeros$}");
        line.extend(format!("{text:>WIDTH$}").bytes());
    }
    line.push(b'\n');
    line
}

/// With no more places than the value needs, or some more.
fn decimal(x: f64, random: &mut Random) -> String {
    let whole = fitting(x, PLACES);
    let Some((_, places)) = whole.split_once('.') else {
        return whole;
    };
    let needed = places.trim_end_matches('0').len();
    let more = random.below((places.len() - needed) as u64 + 1) as usize;
    let more = random.pick(&[0, 0, more]);
    fitting(x, needed + more)
}

#[cfg(test)]
mod tests {
    use super::*;
    use crate::sheets::{Answer, Refused};
    use std::collections::BTreeSet;

    /// The rules that refuse some of many sheets, 0 for none of them, and the damages that were done.
    fn met(damaged: bool) -> (BTreeSet<u64>, BTreeSet<&'static str>) {
        let mut rules = BTreeSet::new();
        let mut damages = BTreeSet::new();
        for seed in 0..3000 {
            let sheet = sheet(damaged, &mut Random::new(seed));
            rules.insert(match Answer::to(&sheet.bytes) {
                Answer::Refused(Refused { rule, .. }) => rule,
                Answer::Swept { .. } => 0,
            });
            damages.extend(sheet.damages);
        }
        (rules, damages)
    }

    #[test]
    fn well_formed_sheets_of_every_kind() {
        let (rules, damages) = met(false);
        assert!(rules.into_iter().eq(0..=10));
        assert!(damages.is_empty());
    }

    #[test]
    fn damaged_sheets_of_every_kind() {
        let (rules, damages) = met(true);
        assert!(rules.into_iter().eq((0..=10).chain([12, 13])));
        assert_eq!(damages.len(), damages::KINDS);
    }

    #[test]
    fn texts() {
        assert_eq!(fitting(1e6, PLACES), "1000000.0000");
        assert_eq!(fitting(99999.9999999, PLACES), "100000.00000");
        assert_eq!(fitting(MOST as f64, PLACES), "999999999999");
        assert_eq!(fitting(-0.0, 0), "0");
        let mut random = Random::new(1);
        for _ in 0..100 {
            for x in [0.1, 2000.000001, 1000000.0001, 320.0] {
                let text = decimal(x, &mut random);
                assert!(text.len() <= WIDTH);
                assert_eq!(text.parse(), Ok(x));
            }
        }
    }
}
