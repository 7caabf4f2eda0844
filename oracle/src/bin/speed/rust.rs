//! The Rust's answers: the loops of the crate `speed` over the published functions, on the same grids; and those over the C library's `snprintf`.

use crate::requests::{self, Request};
use oracle::dc_switching::{
    self, ConverterStation, ConverterTopology, DcBreaker, DcBreakerType, DcCable, DcFaultEvent,
    DcFaultType, DcSwitchingSimulator, DcTransientResult,
};
use oracle::grids::Grid;
use oracle::rules;
use oracle::stand_in::StandIn;
use std::ffi::{c_char, c_int};

/// A request of no work that there is gets 0.
#[inline(never)]
pub fn answer(r: &Request) -> f64 {
    match r.work {
        requests::ROOT => sum_values(f64::sqrt, r),
        requests::E => sum_values(f64::stand_in_exp, r),
        requests::S => sum_values(f64::stand_in_sin, r),
        requests::C => sum_values(f64::stand_in_cos, r),
        requests::LCC_POINT => {
            dc_switching::sum_lcc_points(station(0, POINT_MW), r.first, r.step, r.count)
        }
        requests::VSC_POINT => {
            dc_switching::sum_vsc_points(station(0, POINT_MW), r.first, r.step, r.count)
        }
        requests::FAULT_CURRENT => dc_switching::sum_fault_currents(
            &simulator(r),
            &fault(r.inception_ms),
            r.first,
            r.step,
            r.count,
        ),
        requests::FASTEST => dc_switching::sum_fastest(&mut simulator(r), r.first, r.step, r.count),
        requests::REFUSALS => accepted(r),
        requests::FLOW => flows(r),
        requests::STEP => {
            dc_switching::after_steps(&simulator(r), &fault(r.inception_ms), r.step, r.count)
        }
        requests::FAULT_RUN => fault_runs(r),
        requests::SWITCHING_RUN => switching_runs(r),
        requests::PRINTED => sum_values(last_printed, r),
        _ => 0.0,
    }
}

/// The power of the station whose points are asked for.
const POINT_MW: f64 = 1000.0;

#[inline(always)]
fn sum_values(of: impl Fn(f64) -> f64, r: &Request) -> f64 {
    let mut sum = 0.0;
    let mut x = r.first;
    let mut left = r.count;
    while 0 < left {
        sum += of(x);
        x += r.step;
        left -= 1;
    }
    sum
}

extern "C" {
    fn snprintf(text: *mut c_char, size: usize, format: *const c_char, ...) -> c_int;
}

/// The last of the 21 bytes that the C library prints a double with. Of those that have room in a column it is the column's.
fn last_printed(x: f64) -> f64 {
    let mut text: [c_char; 22] = [0; 22];
    // SAFETY: no more is written than there is room for, a zero at the end; the format has one double.
    unsafe { snprintf(text.as_mut_ptr(), text.len(), c"%21.6f".as_ptr(), x) };
    f64::from(text[20])
}

/// How many fault runs the rules accept, which the published Rust does not have.
fn accepted(r: &Request) -> f64 {
    let mut grid = Grid {
        simulator: simulator(r),
        dt_us: r.dt_us,
        duration_ms: r.duration_ms,
        n_stations: r.stations,
        n_cables: r.cables,
        n_breakers: r.breakers,
    };
    let mut accepted = 0.0;
    let mut ms = r.first;
    for _ in 0..r.count {
        grid.simulator.breakers[0].breaker_type = DcBreakerType::Mechanical {
            opening_time_ms: ms,
        };
        grid.duration_ms = ms;
        if rules::fault(&grid, &fault(ms)) == 0 {
            accepted += 1.0;
        }
        ms += r.step;
    }
    accepted
}

/// Losses and passes. The second station has another power in each turn.
fn flows(r: &Request) -> f64 {
    let mut simulator = simulator(r);
    let mut sum = 0.0;
    let mut mw = r.first;
    let mut left = r.count;
    while 0 < left {
        simulator.stations[1].p_rated_mw = mw;
        let solution = simulator.solve_dc_power_flow().expect("there is a station");
        sum += solution.total_losses_mw + solution.iterations as f64;
        mw += r.step;
        left -= 1;
    }
    sum
}

/// The passes of the first flow.
pub fn passes(r: &Request) -> usize {
    let mut simulator = simulator(r);
    simulator.stations[1].p_rated_mw = r.first;
    let solution = simulator.solve_dc_power_flow().expect("there is a station");
    solution.iterations
}

fn fault_runs(r: &Request) -> f64 {
    let (simulator, fault) = (simulator(r), fault(r.inception_ms));
    let runs = (0..r.count).map(|_| sum_run(&simulator.simulate_fault(&fault).expect("a grid")));
    runs.fold(0.0, |sum, x| sum + x)
}

fn switching_runs(r: &Request) -> f64 {
    let simulator = simulator(r);
    let runs =
        (0..r.count).map(|_| sum_run(&simulator.simulate_switching(1, true).expect("a grid")));
    runs.fold(0.0, |sum, x| sum + x)
}

/// Figures and last state, in the library's order.
fn sum_run(result: &DcTransientResult) -> f64 {
    let figures = result.peak_fault_current_ka
        + result.fault_clearing_time_ms
        + result.energy_dissipated_mj
        + result.voltage_recovery_time_ms
        + result.max_di_dt;
    let last = result.states.last().expect("the last step is recorded");
    dc_switching::sum_state(figures, last)
}

/// Stations of the four topologies in turn; a ring of cables, then a chord over five stations from each in turn; breakers of the three kinds in turn,
/// each a millisecond slower than the one before.
fn simulator(r: &Request) -> DcSwitchingSimulator {
    let mut simulator = DcSwitchingSimulator::new(r.dt_us, r.duration_ms);
    let n = r.stations as usize;
    for id in 0..n {
        simulator.add_station(station(id, r.power_mw));
    }
    for id in 0..r.cables as usize {
        let over = if id < n { 1 } else { 5 };
        simulator.add_cable(DcCable {
            id,
            from_station: id % n,
            to_station: (id + over) % n,
            r_per_km: r.ohms_per_km,
            l_per_km: 0.5,
            c_per_km: 0.2,
            length_km: 200.0,
        });
    }
    for id in 0..r.breakers as usize {
        simulator.add_breaker(breaker(id, r.breaker_ms + id as f64));
    }
    simulator
}

fn station(id: usize, p_rated_mw: f64) -> ConverterStation {
    ConverterStation {
        id,
        name: String::new(),
        topology: match id % 4 {
            0 => ConverterTopology::Lcc,
            1 => ConverterTopology::TwoLevelVsc,
            2 => ConverterTopology::Mmc { n_submodules: 200 },
            _ => ConverterTopology::Hybrid,
        },
        v_dc_rated_kv: 320.0,
        p_rated_mw,
        x_transformer_pu: 0.15,
        scr: 3.0,
        control_angle_deg: 15.0,
        x_commutation_pu: 0.1,
        arm_inductance_mh: 50.0,
        sm_capacitance_uf: 10000.0,
    }
}

fn breaker(id: usize, ms: f64) -> DcBreaker {
    DcBreaker {
        id,
        station_id: 0,
        breaker_type: match id % 3 {
            0 => DcBreakerType::Mechanical {
                opening_time_ms: ms,
            },
            1 => DcBreakerType::SolidState {
                turn_off_time_us: ms * 1000.0,
                on_state_loss_pct: 0.1,
            },
            _ => DcBreakerType::HybridBreaker {
                opening_time_ms: ms,
                commutation_time_us: ms * 900.0,
            },
        },
        max_breaking_current_ka: 16.0,
        energy_absorption_mj: 10.0,
    }
}

fn fault(inception_time_ms: f64) -> DcFaultEvent {
    DcFaultEvent {
        fault_type: DcFaultType::PoleToGround,
        location_cable_id: 0,
        location_fraction: 0.5,
        fault_resistance: 10.0,
        inception_time_ms,
    }
}

#[cfg(test)]
mod tests {
    use super::*;
    use oracle::decimals::column;

    #[test]
    fn the_last_byte_of_a_column() {
        let mut x = -1000.0;
        for _ in 0..20_000 {
            assert_eq!(last_printed(x), f64::from(column(x)[20]), "{x:e}");
            x += 0.123457;
        }
        let last = 1e13f64.next_down();
        for x in [0.0, -0.0, -4e-7, 1.0 / 128.0, 3.0 / 128.0, last] {
            assert_eq!(last_printed(x), f64::from(column(x)[20]), "{x:e}");
        }
    }
}
