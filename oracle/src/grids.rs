//! Grids, events and orders as the jobs give them, in the published types. A topology, a kind of breaker or a fault type that
//! there is not ends the input.

use crate::dc_switching::{
    ConverterStation, ConverterTopology, DcBreaker, DcBreakerType, DcCable, DcFaultEvent,
    DcFaultType, DcSwitchingSimulator, DcTransientState,
};
use crate::jobs::TIMED_FAULT_RUN;
use crate::numbers::double;

/// How many parts follow the counts at most.
pub const STATIONS: u64 = 32;
pub const CABLES: u64 = 64;
pub const BREAKERS: u64 = 32;

/// A grid as it is given. The published `new` raises every time, also one that document 01 refuses, and a list of parts may be
/// shorter than its count, so times and counts are kept beside the simulator.
pub struct Grid {
    pub simulator: DcSwitchingSimulator,
    pub dt_us: f64,
    pub duration_ms: f64,
    pub n_stations: u64,
    pub n_cables: u64,
    pub n_breakers: u64,
}

/// What a sweep is asked for, which the published types do not have.
pub struct SweepOrder {
    pub fault_resistance: f64,
    pub inception_time_ms: f64,
    pub low_tenth: u64,
    pub high_tenth: u64,
}

pub fn grid(input: &mut impl Iterator<Item = u64>) -> Option<Grid> {
    let dt_us = double(input.next()?);
    let duration_ms = double(input.next()?);
    let n_stations = input.next()?;
    let n_cables = input.next()?;
    let n_breakers = input.next()?;
    let mut simulator = DcSwitchingSimulator::new(dt_us, duration_ms);
    for _ in 0..n_stations.min(STATIONS) {
        simulator.add_station(station(input)?);
    }
    for _ in 0..n_cables.min(CABLES) {
        simulator.add_cable(cable(input)?);
    }
    for _ in 0..n_breakers.min(BREAKERS) {
        simulator.add_breaker(breaker(input)?);
    }
    Some(Grid {
        simulator,
        dt_us,
        duration_ms,
        n_stations,
        n_cables,
        n_breakers,
    })
}

/// The grid of a job: as `new` made it, or with its two times set once it is there, which stand before it. A study raises such
/// times where it uses them, as `new` does, and they are checked as they are given.
pub fn grid_of(job: u64, input: &mut impl Iterator<Item = u64>) -> Option<Grid> {
    if job != TIMED_FAULT_RUN {
        return grid(input);
    }
    let dt_us = double(input.next()?);
    let duration_ms = double(input.next()?);
    let mut grid = grid(input)?;
    let raised = DcSwitchingSimulator::new(dt_us, duration_ms);
    grid.simulator.dt_us = raised.dt_us;
    grid.simulator.duration_ms = raised.duration_ms;
    grid.dt_us = dt_us;
    grid.duration_ms = duration_ms;
    Some(grid)
}

pub fn station(input: &mut impl Iterator<Item = u64>) -> Option<ConverterStation> {
    let topology = input.next()?;
    let n_submodules = input.next()? as usize;
    Some(ConverterStation {
        topology: match topology {
            0 => ConverterTopology::Lcc,
            1 => ConverterTopology::TwoLevelVsc,
            2 => ConverterTopology::Mmc { n_submodules },
            3 => ConverterTopology::Hybrid,
            _ => return None,
        },
        name: String::new(),
        id: input.next()? as usize,
        v_dc_rated_kv: double(input.next()?),
        p_rated_mw: double(input.next()?),
        x_transformer_pu: double(input.next()?),
        scr: double(input.next()?),
        control_angle_deg: double(input.next()?),
        x_commutation_pu: double(input.next()?),
        arm_inductance_mh: double(input.next()?),
        sm_capacitance_uf: double(input.next()?),
    })
}

pub fn cable(input: &mut impl Iterator<Item = u64>) -> Option<DcCable> {
    Some(DcCable {
        id: input.next()? as usize,
        from_station: input.next()? as usize,
        to_station: input.next()? as usize,
        r_per_km: double(input.next()?),
        l_per_km: double(input.next()?),
        c_per_km: double(input.next()?),
        length_km: double(input.next()?),
    })
}

pub fn breaker(input: &mut impl Iterator<Item = u64>) -> Option<DcBreaker> {
    let id = input.next()? as usize;
    let station_id = input.next()? as usize;
    let kind = input.next()?;
    let time = double(input.next()?);
    let second = double(input.next()?);
    Some(DcBreaker {
        id,
        station_id,
        breaker_type: match kind {
            0 => DcBreakerType::Mechanical {
                opening_time_ms: time,
            },
            1 => DcBreakerType::SolidState {
                turn_off_time_us: time,
                on_state_loss_pct: second,
            },
            2 => DcBreakerType::HybridBreaker {
                opening_time_ms: time,
                commutation_time_us: second,
            },
            _ => return None,
        },
        max_breaking_current_ka: double(input.next()?),
        energy_absorption_mj: double(input.next()?),
    })
}

pub fn fault(input: &mut impl Iterator<Item = u64>) -> Option<DcFaultEvent> {
    Some(DcFaultEvent {
        fault_type: match input.next()? {
            0 => DcFaultType::PoleToGround,
            1 => DcFaultType::PoleToPole,
            2 => DcFaultType::ConverterInternal,
            _ => return None,
        },
        location_cable_id: input.next()? as usize,
        location_fraction: double(input.next()?),
        fault_resistance: double(input.next()?),
        inception_time_ms: double(input.next()?),
    })
}

/// Station voltages and cable currents, as many as the grid has parts; what else a state has is at rest.
pub fn state(
    grid: &Grid,
    time_ms: f64,
    input: &mut impl Iterator<Item = u64>,
) -> Option<DcTransientState> {
    let stations = grid.simulator.stations.len();
    Some(DcTransientState {
        time_ms,
        station_voltages_kv: doubles(stations, input)?,
        station_currents_ka: vec![0.0; stations],
        cable_currents_ka: doubles(grid.simulator.cables.len(), input)?,
        fault_current_ka: 0.0,
        breaker_states: vec![true; grid.simulator.breakers.len()],
    })
}

fn doubles(n: usize, input: &mut impl Iterator<Item = u64>) -> Option<Vec<f64>> {
    (0..n).map(|_| input.next().map(double)).collect()
}

pub fn order(input: &mut impl Iterator<Item = u64>) -> Option<SweepOrder> {
    Some(SweepOrder {
        fault_resistance: double(input.next()?),
        inception_time_ms: double(input.next()?),
        low_tenth: input.next()?,
        high_tenth: input.next()?,
    })
}
