//! Flights: clean, noisy, extended, saturated, longer than the window.

use super::made::{config_for, extend, flight_ticks, flown_ticks, noisy, spoil, tick_s};
use crate::flight::Airframe;
use crate::random::Random;
use crate::{Call, List};

pub fn clean_flight(random: &mut Random, family: &'static str) -> List {
    let (ticks, dt) = (flight_ticks(random), tick_s(random));
    let mut config = config_for(random, ticks, dt);
    if random.once_in(3) {
        extend(random, &mut config, 2 * ticks, dt);
    }
    let step = random.below(20);
    let mut airframe = Airframe::random(random, step);
    airframe.noise = random.pick(&[0.0, 0.0, 1e-5, 1e-3, 0.005]);
    let flown = flown_ticks(random, ticks);
    let calls = airframe.fly(random, &config, flown, |_| dt);
    List::new(random, family, &config, &calls)
}

pub fn noisy_flight(random: &mut Random, family: &'static str) -> List {
    let (config, calls, _) = noisy(random, false);
    List::new(random, family, &config, &calls)
}

pub fn extended_flight(random: &mut Random, family: &'static str) -> List {
    let (config, calls, _) = noisy(random, true);
    List::new(random, family, &config, &calls)
}

/// Noisy up to the end time, and then clean, saturated, wild, held or constant, so that the
/// second classification answers otherwise.
pub fn extended_then_otherwise(random: &mut Random, family: &'static str) -> List {
    let (ticks, dt) = (random.between(30, 120), tick_s(random));
    let mut config = config_for(random, ticks, dt);
    let all = ticks + random.between(1, 300);
    extend(random, &mut config, all, dt);
    let step = random.below(20);
    let mut airframe = Airframe::random(random, step);
    airframe.noise = random.range(0.02, 0.06);
    airframe.limit = 0.9;
    let mut calls = airframe.fly(random, &config, ticks, |_| dt);
    airframe.noise = 0.0;
    let flown = all - ticks + random.below(4);
    let more = airframe.fly(random, &config, flown, |_| dt);
    let kind = random.below(5);
    for mut call in more {
        match kind {
            0 => {}
            1 => call.moment = random.pick(&[1.0, -1.0, 0.999]),
            2 => call.rate = random.scaled(1e15, 1e38) as f32,
            3 => call.rate = f32::NAN,
            _ => {
                call = Call {
                    dt,
                    rate: 0.0,
                    moment: 0.0,
                }
            }
        }
        calls.push(call);
    }
    List::new(random, family, &config, &calls)
}

/// As many moments at the rail as one in five, and a few more or less.
pub fn saturated_share(random: &mut Random, family: &'static str) -> List {
    let (ticks, dt) = (random.between(15, 250), tick_s(random));
    let mut config = config_for(random, ticks, dt);
    if random.once_in(4) {
        let all = ticks + random.below(40);
        extend(random, &mut config, all, dt);
    }
    let step = random.below(20);
    let mut airframe = Airframe::random(random, step);
    airframe.noise = random.range(0.1, 1.0);
    airframe.limit = 0.95;
    let mut calls = airframe.fly(random, &config, ticks, |_| dt);
    let wanted = match random.below(6) {
        0 => random.below(ticks + 1),
        _ => (ticks / 5 + random.below(4)).saturating_sub(1),
    };
    let mut places: Vec<usize> = (0..ticks).collect();
    for n in 0..wanted.min(ticks) {
        places.swap(n, n + random.below(ticks - n));
        let rail = random.pick(&[1.0, -1.0, 0.999, -0.999, 1.5]);
        calls[places[n]].moment = rail;
    }
    if random.once_in(3) {
        // Just below the rail, and held samples that repeat it.
        let place = random.below(ticks);
        calls[place].moment = random.pick(&[0.998_999_95, -0.998_999_95, f32::NAN]);
    }
    List::new(random, family, &config, &calls)
}

pub fn full_window(random: &mut Random, family: &'static str) -> List {
    let dt = random.scaled(0.0005, 0.004) as f32;
    let ticks = random.between(2040, 2300);
    let mut config = config_for(random, ticks, dt);
    if random.once_in(3) {
        config.duration_s *= 0.97;
        extend(random, &mut config, ticks, dt);
    }
    let step = random.below(20);
    let mut airframe = Airframe::random(random, step);
    airframe.noise = random.pick(&[0.0, 0.002, 0.1]);
    let flown = match random.below(4) {
        0 => ticks - 1 - random.below(30),
        _ => ticks + random.below(4),
    };
    let mut calls = airframe.fly(random, &config, flown, |_| dt);
    if random.once_in(2) {
        for _ in 0..random.between(1, 40) {
            let place = random.below(calls.len());
            spoil(random, &mut calls[place]);
        }
    }
    List::new(random, family, &config, &calls)
}
