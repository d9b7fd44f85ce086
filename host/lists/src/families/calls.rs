//! Calls and configurations of any value, long ticks, and what is turned back.

use super::made::{config_for, extend, noisy, tick_s, wild, wild_positive};
use crate::flight::Airframe;
use crate::random::Random;
use crate::{Call, Config, List, call_bytes};

pub fn wild_values(random: &mut Random, family: &'static str) -> List {
    let (ticks, dt) = (random.between(1, 120), tick_s(random));
    let mut config = config_for(random, ticks, dt);
    if random.once_in(3) {
        let all = ticks + random.below(20);
        extend(random, &mut config, all, dt);
    }
    let wild_config = random.once_in(2);
    if wild_config {
        config.amplitude = wild_positive(random) * random.pick(&[1.0, -1.0]);
        config.washout_tc_s = wild_positive(random);
        if config.extended() {
            config.extension_amplitude = wild_positive(random);
        }
    }
    if random.once_in(20) {
        config.duration_s = wild(random);
        config.flag = random.word();
    }
    let step = random.below(20);
    let mut airframe = Airframe::random(random, step);
    airframe.noise = random.pick(&[0.0, 0.05, 0.3]);
    let plain = Config {
        amplitude: 1.0,
        washout_tc_s: 0.2,
        ..config
    };
    let mut calls = airframe.fly(random, &plain, ticks, |_| dt);
    let often = random.pick(&[1, 2, 5, 20, 60]);
    let fields = random.between(1, 7);
    for call in &mut calls {
        if fields & 1 != 0 && random.once_in(often) {
            call.rate = wild(random);
        }
        if fields & 2 != 0 && random.once_in(often) {
            call.moment = wild(random);
        }
        if fields & 4 != 0 && random.once_in(4 * often) {
            call.dt = wild(random);
        }
    }
    List::new(random, family, &config, &calls)
}

/// Ticks that pass several edges, up to thousands, and the elapsed limit.
pub fn long_dt(random: &mut Random, family: &'static str) -> List {
    let ticks = random.between(1, 60);
    let longest = random.pick(&[1.0, 3.0, 30.0, 300.0, 3000.0, 5000.0]);
    let mut config = config_for(random, 20, 0.1);
    config.duration_s = random.pick(&[0.5, 10.0, 100.0, 1000.0, 3600.0]);
    config.washout_tc_s = random.scaled(0.01, 1000.0) as f32;
    if random.once_in(3) {
        config.flag = 1;
        config.extension_amplitude = 2.0;
        config.extension_duration_s = random.pick(&[config.duration_s, 3600.0]);
    }
    let (rates, moments) = (random.scaled(1e-3, 10.0), random.range(0.1, 1.0));
    let mut calls: Vec<Call> = (0..ticks)
        .map(|_| Call {
            dt: random.scaled(0.01, longest) as f32,
            rate: (rates * random.normal()) as f32,
            moment: (moments * random.range(-1.0, 1.0)) as f32,
        })
        .collect();
    if random.once_in(6) {
        calls[0].dt = random.pick(&[4096.0, 4_096.000_5, 4_095.999_8, 1.0, 1000.0]);
    }
    List::new(random, family, &config, &calls)
}

/// Calls that 6 and 7 turn back, in the middle and after the end.
pub fn refused_calls(random: &mut Random, family: &'static str) -> List {
    let extension = random.once_in(3);
    let (mut config, mut calls, dt) = match random.below(3) {
        0 => noisy(random, extension),
        _ => {
            let (ticks, dt) = (random.between(5, 80), tick_s(random));
            let config = config_for(random, ticks, dt);
            let step = random.below(20);
            let airframe = Airframe::random(random, step);
            let calls = airframe.fly(random, &config, ticks + 4, |_| dt);
            (config, calls, dt)
        }
    };
    if random.once_in(5) {
        config.duration_s = 3600.0;
        config.flag = 0;
    }
    for _ in 0..random.between(1, 8) {
        let bad = random.pick(&[
            0.0,
            -0.0,
            -dt,
            f32::NAN,
            f32::INFINITY,
            f32::NEG_INFINITY,
            5000.0,
            4097.0,
            4096.0,
            3.0e38,
        ]);
        let place = random.below(calls.len() + 1);
        let (rate, moment) = (wild(random), wild(random));
        calls.insert(
            place,
            Call {
                dt: bad,
                rate,
                moment,
            },
        );
    }
    List::new(random, family, &config, &calls)
}

pub fn bad_config(random: &mut Random, family: &'static str) -> List {
    let mut config = config_for(random, 4, 0.1);
    config.duration_s = random.scaled(0.1, 3600.0) as f32;
    if random.once_in(2) {
        extend(random, &mut config, 8, 0.1);
        config.extension_duration_s = config.duration_s * random.pick(&[1.0, 1.0, 1.5]);
    }
    let bad = [0.0, -0.0, f32::NAN, f32::INFINITY, f32::NEG_INFINITY];
    let first = random.between(1, 5);
    for number in first..=5 {
        if number > first && random.once_in(2) {
            continue;
        }
        match number {
            1 => config.amplitude = random.pick(&bad),
            2 => {
                config.duration_s =
                    random.pick(&[0.0, -1.0, f32::NAN, f32::INFINITY, 3_600.000_2, 1e9])
            }
            3 => config.washout_tc_s = random.pick(&[0.0, -0.0, -1.0, f32::NAN, f32::INFINITY]),
            4 => {
                config.flag = random.pick(&[0, 1, 1, 1, 0x8000_0000]);
                config.extension_amplitude = random.pick(&bad);
                config.extension_duration_s = config.duration_s;
            }
            _ => {
                config.flag = random.pick(&[0, 1, 1, 1, 0x8000_0000]);
                if config.extension_amplitude == 0.0 && random.once_in(2) {
                    config.extension_amplitude = 1.0;
                }
                let short = config.duration_s.next_down();
                config.extension_duration_s =
                    random.pick(&[short, -1.0, 0.0, f32::NAN, f32::INFINITY, 3_600.000_2]);
            }
        }
    }
    let calls: Vec<Call> = (0..random.below(4))
        .map(|_| Call {
            dt: 0.1,
            rate: 0.0,
            moment: 0.0,
        })
        .collect();
    List::new(random, family, &config, &calls)
}

pub fn bad_buffers(random: &mut Random, family: &'static str) -> List {
    let mut config = config_for(random, 4, 0.1);
    if random.once_in(4) {
        config.amplitude = 0.0;
    }
    let calls: Vec<Call> = (0..random.below(6))
        .map(|_| Call {
            dt: 0.1,
            rate: 1.0,
            moment: 0.5,
        })
        .collect();
    let mut list = List {
        family,
        config: config.bytes(),
        calls: call_bytes(&calls),
        output_len: 36 + 4 * calls.len(),
    };
    match random.below(5) {
        0 => list.config.truncate(random.below(24)),
        1 => list.config.resize(24 + random.between(1, 12), 0x3f),
        2 => list
            .calls
            .resize(list.calls.len() + random.between(1, 11), 0x3d),
        3 => list.output_len -= random.between(1, 36),
        // One call more than the output has room for, or just enough.
        _ => list.output_len = (list.output_len + random.below(2)).saturating_sub(1),
    }
    list
}
