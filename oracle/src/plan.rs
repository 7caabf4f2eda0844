//! A job on a grid in its parts, so that one field after another can be set, and the fields that document 01 gives a range.

use crate::grids::{CABLES, STATIONS};
use crate::jobs::{
    has_fault, has_order, is_point, CIRCUIT, DETECTION, FAULT_RUN, FLOW, KEPT_FAULT_RUN,
    KEPT_SWEEP, KEPT_SWITCHING_RUN, LCC_POINT, STEP, SWEEP, SWITCHING_RUN, TIMED_FAULT_RUN, TIMES,
    VSC_POINT,
};
use crate::numbers::NAN;
use crate::rules::{self, Range};

/// The numbers of a job, part by part, in the job's order.
#[derive(Clone)]
pub struct Plan {
    pub job: u64,
    /// Time step and duration: handed to `new`, or of a fault run at set times those that are set.
    pub times: [u64; 2],
    /// What is handed to `new` then.
    pub first_times: [u64; 2],
    /// The parts that follow are as many as these say, but at most the arrays' lengths.
    pub counts: [u64; 3],
    pub stations: Vec<[u64; 11]>,
    pub cables: Vec<[u64; 7]>,
    pub breakers: Vec<[u64; 7]>,
    /// A fault, or a sweep order.
    pub event: Vec<u64>,
    /// What no rule of a grid looks at: a current, power and voltage, a breaker number, calls, a case number, steps made, whether a fault
    /// is handed to a step, times.
    pub rest: Vec<u64>,
    /// The states of a detection, or that of a step; where there is none here, 0, 1, 2 and so on, as many as the counts ask for.
    pub states: Vec<u64>,
}

/// Where a field stands.
#[derive(Clone, Copy)]
enum Part {
    Times,
    Station(usize),
    Cable(usize),
    Breaker(usize),
    Event,
}

/// A field of a plan: whose rule refuses it, and what is accepted in it.
#[derive(Clone, Copy)]
pub struct Field {
    pub name: &'static str,
    pub rule: u64,
    pub accepted: Accepted,
    part: Part,
    column: usize,
}

#[derive(Clone, Copy)]
pub enum Accepted {
    Doubles(Range),
    /// Whole numbers from 0 to this.
    Numbers(u64),
}

/// A value of interest: the lowest accepted, the one before it, the highest, the one after it, NaN, any other.
#[derive(Clone, Copy, PartialEq, Eq, Hash, PartialOrd, Ord, Debug)]
pub enum End {
    Low,
    Below,
    High,
    Above,
    Nan,
    Other,
}

impl End {
    pub fn is_accepted(self) -> bool {
        matches!(self, End::Low | End::High)
    }

    pub const ALL: [End; 6] = [
        End::Low,
        End::Below,
        End::High,
        End::Above,
        End::Nan,
        End::Other,
    ];

    pub fn name(self) -> &'static str {
        match self {
            End::Low => "low",
            End::Below => "below",
            End::High => "high",
            End::Above => "above",
            End::Nan => "NaN",
            End::Other => "other",
        }
    }
}

impl Accepted {
    /// The number at an end, if there is one: nothing is below 0 and no whole number is a NaN, and `Other` is not one number.
    pub fn at(self, end: End) -> Option<u64> {
        match (self, end) {
            (Accepted::Doubles(range), End::Low) => Some(range.low.to_bits()),
            (Accepted::Doubles(range), End::Below) => Some(range.low.next_down().to_bits()),
            (Accepted::Doubles(range), End::High) => Some(range.high.to_bits()),
            (Accepted::Doubles(range), End::Above) => Some(range.high.next_up().to_bits()),
            (Accepted::Doubles(_), End::Nan) => Some(NAN),
            (Accepted::Numbers(_), End::Low) => Some(0),
            (Accepted::Numbers(last), End::High) => Some(last),
            (Accepted::Numbers(last), End::Above) => Some(last + 1),
            _ => None,
        }
    }
}

const STATION: [(&str, Range); 8] = [
    ("rated kV", rules::RATED_KV),
    ("rated MW", rules::RATED_MW),
    ("transformer reactance", rules::TRANSFORMER_REACTANCE),
    ("SCR", rules::SCR),
    ("control angle", rules::CONTROL_ANGLE),
    ("commutation reactance", rules::COMMUTATION_REACTANCE),
    ("arm inductance", rules::ARM_INDUCTANCE),
    ("submodule capacitance", rules::SUBMODULE_CAPACITANCE),
];

const CABLE: [(&str, Range); 4] = [
    ("R per km", rules::PER_KM),
    ("L per km", rules::PER_KM),
    ("C per km", rules::PER_KM),
    ("length", rules::LENGTH),
];

/// The topologies; an MMC alone counts submodules.
pub const LCC: u64 = 0;
pub const TWO_LEVEL: u64 = 1;
pub const MMC: u64 = 2;
pub const HYBRID_CONVERTER: u64 = 3;

/// The kinds of breakers.
pub const MECHANICAL: u64 = 0;
pub const SOLID_STATE: u64 = 1;
pub const HYBRID: u64 = 2;

impl Plan {
    /// A job on one LCC station of 100 kV, one cable from it to itself and one mechanical breaker at it, for one step, with a
    /// fault at the cable's start or all tenths of a cable, without a call, or with no step made. All rules accept it.
    pub fn small(job: u64) -> Plan {
        let mut plan = Plan {
            job,
            times: [1000f64.to_bits(), 1f64.to_bits()],
            first_times: [1000f64.to_bits(), 1f64.to_bits()],
            counts: [1, 1, 1],
            stations: vec![[0; 11]],
            cables: vec![[0; 7]],
            breakers: vec![[0; 7]],
            event: match job {
                _ if has_fault(job) => vec![0; 5],
                _ if has_order(job) => vec![0, 0, 0, rules::LAST_TENTH],
                _ => Vec::new(),
            },
            rest: match job {
                FLOW | DETECTION | TIMES => Vec::new(),
                LCC_POINT | FAULT_RUN | SWEEP | KEPT_FAULT_RUN | TIMED_FAULT_RUN => vec![0],
                KEPT_SWEEP => vec![0, 0],
                VSC_POINT => vec![0, 100f64.to_bits()],
                SWITCHING_RUN | KEPT_SWITCHING_RUN => vec![0, 1, 0],
                STEP => vec![1, 1e-6f64.to_bits()],
                CIRCUIT => vec![1f64.to_bits(), 1f64.to_bits(), 0],
                _ => panic!("job {job} has no grid"),
            },
            states: Vec::new(),
        };
        plan.stations[0][3] = 100f64.to_bits();
        plan
    }

    /// The numbers in the order of the input.
    pub fn numbers(&self) -> Vec<u64> {
        let mut numbers = vec![self.job];
        if is_point(self.job) {
            numbers.extend(self.stations[0]);
        } else {
            numbers.extend(self.times);
            if self.job == TIMED_FAULT_RUN {
                numbers.extend(self.first_times);
            }
            numbers.extend(self.counts);
            numbers.extend(self.stations.iter().flatten());
            numbers.extend(self.cables.iter().flatten());
            numbers.extend(self.breakers.iter().flatten());
        }
        numbers.extend(&self.event);
        numbers.extend(&self.rest);
        if self.states.is_empty() {
            numbers.extend((0..self.state_numbers()).map(|n| (n as f64).to_bits()));
        } else {
            numbers.extend(&self.states);
        }
        numbers
    }

    /// How many numbers the states of the job have.
    pub fn state_numbers(&self) -> u64 {
        let [stations, cables, _] = self.counts;
        let entries = stations.min(STATIONS) + cables.min(CABLES);
        match self.job {
            // Of each of two the time too.
            DETECTION => 2 * (1 + entries),
            STEP => entries,
            _ => 0,
        }
    }

    /// The fields that the job has: of an operating point those of its station alone.
    pub fn fields(&self) -> Vec<Field> {
        let mut fields = Vec::new();
        for (i, station) in self.stations.iter().enumerate() {
            station_fields(i, station, &mut fields);
        }
        if is_point(self.job) {
            return fields;
        }
        for i in 0..self.cables.len() {
            cable_fields(i, &mut fields);
        }
        for (i, breaker) in self.breakers.iter().enumerate() {
            breaker_fields(i, breaker, &mut fields);
        }
        let event: &[(&str, Accepted)] = match self.job {
            job if has_fault(job) => &[
                ("cable of the fault", Accepted::Numbers(rules::LAST_NUMBER)),
                ("fraction", Accepted::Doubles(rules::FRACTION)),
                ("fault resistance", Accepted::Doubles(rules::RESISTANCE)),
                ("fault inception", Accepted::Doubles(rules::INCEPTION)),
            ],
            job if has_order(job) => &[
                ("order resistance", Accepted::Doubles(rules::RESISTANCE)),
                ("order inception", Accepted::Doubles(rules::INCEPTION)),
                ("low tenth", Accepted::Numbers(rules::LAST_TENTH)),
                ("high tenth", Accepted::Numbers(rules::LAST_TENTH)),
            ],
            _ => &[],
        };
        // A fault's type stands before its fields.
        let first = self.event.len() - event.len();
        for (column, &(name, accepted)) in (first..).zip(event) {
            fields.push(Field {
                name,
                rule: 9,
                accepted,
                part: Part::Event,
                column,
            });
        }
        let times = [
            ("time step", rules::TIME_STEP),
            ("duration", rules::DURATION),
        ];
        for (column, (name, range)) in times.into_iter().enumerate() {
            fields.push(Field {
                name,
                rule: 4,
                accepted: Accepted::Doubles(range),
                part: Part::Times,
                column,
            });
        }
        fields
    }

    pub fn number(&self, field: &Field) -> u64 {
        match field.part {
            Part::Times => self.times[field.column],
            Part::Station(i) => self.stations[i][field.column],
            Part::Cable(i) => self.cables[i][field.column],
            Part::Breaker(i) => self.breakers[i][field.column],
            Part::Event => self.event[field.column],
        }
    }

    pub fn set(&mut self, field: &Field, number: u64) {
        match field.part {
            Part::Times => self.times[field.column] = number,
            Part::Station(i) => self.stations[i][field.column] = number,
            Part::Cable(i) => self.cables[i][field.column] = number,
            Part::Breaker(i) => self.breakers[i][field.column] = number,
            Part::Event => self.event[field.column] = number,
        }
    }
}

fn station_fields(i: usize, station: &[u64; 11], fields: &mut Vec<Field>) {
    let mut add = |column, name, accepted| {
        fields.push(Field {
            name,
            rule: 6,
            accepted,
            part: Part::Station(i),
            column,
        })
    };
    if station[0] == MMC {
        add(1, "submodules", Accepted::Numbers(rules::LAST_NUMBER));
    }
    add(2, "station id", Accepted::Numbers(rules::LAST_NUMBER));
    for (column, (name, range)) in (3..).zip(STATION) {
        add(column, name, Accepted::Doubles(range));
    }
}

fn cable_fields(i: usize, fields: &mut Vec<Field>) {
    let mut add = |column, name, accepted| {
        fields.push(Field {
            name,
            rule: 7,
            accepted,
            part: Part::Cable(i),
            column,
        })
    };
    for (column, name) in ["cable id", "from", "to"].into_iter().enumerate() {
        add(column, name, Accepted::Numbers(rules::LAST_NUMBER));
    }
    for (column, (name, range)) in (3..).zip(CABLE) {
        add(column, name, Accepted::Doubles(range));
    }
}

fn breaker_fields(i: usize, breaker: &[u64; 7], fields: &mut Vec<Field>) {
    let mut add = |column, name, accepted| {
        fields.push(Field {
            name,
            rule: 8,
            accepted,
            part: Part::Breaker(i),
            column,
        })
    };
    add(0, "breaker id", Accepted::Numbers(rules::LAST_NUMBER));
    add(
        1,
        "station of a breaker",
        Accepted::Numbers(rules::LAST_NUMBER),
    );
    let time = Accepted::Doubles(rules::BREAKER_TIME);
    match breaker[2] {
        MECHANICAL => add(3, "mechanical opening", time),
        SOLID_STATE => {
            add(3, "turn-off", time);
            add(4, "on-state loss", Accepted::Doubles(rules::ON_STATE_LOSS));
        }
        HYBRID => {
            add(3, "hybrid opening", time);
            add(4, "commutation", time);
        }
        // Of another kind, which a sheet may name, no time is known.
        _ => {}
    }
    add(
        5,
        "breaking current",
        Accepted::Doubles(rules::BREAKING_CURRENT),
    );
    add(6, "energy", Accepted::Doubles(rules::ENERGY));
}
