//! What the families share: configurations, lengths, readings.

use crate::flight::Airframe;
use crate::random::Random;
use crate::{Call, Config};

/// A configuration for a window of `ticks` ticks of `dt`.
pub fn config_for(random: &mut Random, ticks: usize, dt: f32) -> Config {
    let amplitude = random.scaled(0.2, 6.0) as f32;
    let duration_s = end_of(random, ticks, dt);
    Config {
        amplitude: if random.once_in(8) {
            -amplitude
        } else {
            amplitude
        },
        duration_s,
        washout_tc_s: random.scaled(0.02, 2.0) as f32,
        flag: 0,
        extension_amplitude: 0.0,
        extension_duration_s: 0.0,
    }
}

/// The configuration with an extension to `ticks` ticks of `dt` in all.
pub fn extend(random: &mut Random, config: &mut Config, ticks: usize, dt: f32) {
    config.flag = random.pick(&[1, 1, 2, 0x8000_0000, 0x3f80_0000, 0xffff_ffff]);
    config.extension_amplitude = config.amplitude * random.range(0.5, 3.0) as f32;
    if random.once_in(6) {
        config.extension_amplitude = -config.extension_amplitude;
    }
    config.extension_duration_s = end_of(random, ticks, dt).max(config.duration_s);
}

/// An end time that tick number `ticks` is the first to reach: half a tick before it, or just
/// when it falls, the ticks added up as a probe adds them.
fn end_of(random: &mut Random, ticks: usize, dt: f32) -> f32 {
    if ticks > 0 && random.once_in(3) {
        (0..ticks).fold(0.0, |elapsed, _| elapsed + dt)
    } else {
        (ticks as f32 - 0.5).max(0.1) * dt
    }
}

pub fn tick_s(random: &mut Random) -> f32 {
    match random.below(4) {
        0 => 0.004,
        1 => 0.02,
        _ => random.scaled(0.001, 0.04) as f32,
    }
}

/// A window's length for a flight: mostly short, so that many lists can be run.
pub fn flight_ticks(random: &mut Random) -> usize {
    match random.below(10) {
        0..=5 => random.between(40, 160),
        6..=8 => random.between(100, 400),
        _ => random.between(300, 900),
    }
}

/// Ticks after the window's end, or before it where the flight is cut short.
pub fn flown_ticks(random: &mut Random, ticks: usize) -> usize {
    match random.below(12) {
        0 => random.below(ticks + 1),
        1..=3 => ticks + random.below(5),
        _ => ticks,
    }
}

/// A noisy flight: configuration, calls and tick.
pub fn noisy(random: &mut Random, extension: bool) -> (Config, Vec<Call>, f32) {
    let (ticks, dt) = (flight_ticks(random), tick_s(random));
    let mut config = config_for(random, ticks, dt);
    let mut all = ticks;
    if extension {
        all = ticks + random.below(ticks + 1);
        extend(random, &mut config, all, dt);
    }
    let step = random.below(20);
    let mut airframe = Airframe::random(random, step);
    airframe.noise = random.scaled(0.012, 0.5);
    airframe.limit = random.pick(&[1.0, 0.998, 0.9]);
    let flown = flown_ticks(random, all);
    // A clock that jitters, now and then.
    let jitter = if random.once_in(4) { 0.2 } else { 0.0 };
    let calls = airframe.fly(random, &config, flown, |random| {
        dt * (1.0 + jitter * (random.unit() as f32 - 0.5))
    });
    (config, calls, dt)
}

/// A bad reading: the rate, the moment or both.
pub fn spoil(random: &mut Random, call: &mut Call) {
    let bad = random.pick(&[
        f32::NAN,
        f32::INFINITY,
        f32::NEG_INFINITY,
        f32::from_bits(0xff81_2345),
    ]);
    match random.below(3) {
        0 => call.rate = bad,
        1 => call.moment = bad,
        _ => (call.rate, call.moment) = (bad, bad),
    }
}

/// A value of any kind: huge, subnormal, infinite, NaN, random bits.
pub fn wild(random: &mut Random) -> f32 {
    match random.below(10) {
        0 => f32::from_bits(random.word()),
        1 => f32::from_bits(random.word() & 0x807f_ffff),
        2 => random.pick(&[
            0.0,
            -0.0,
            f32::INFINITY,
            f32::NEG_INFINITY,
            f32::NAN,
            f32::MAX,
            f32::MIN,
        ]),
        3 => f32::from_bits(random.pick(&[0x7f80_0001, 0xffc0_0000, 0x7fff_ffff, 0x7fc0_0006])),
        4 => random.range(-3.0, 3.0) as f32 * random.pick(&[1e38, 1e30, 1e20, 1e19, 1e10]),
        5 => random.range(-3.0, 3.0) as f32 * random.pick(&[1e-38, 1e-44, 1e-30, 1e-20, 1e-10]),
        6 => random.pick(&[1.0, -1.0, 0.999, 0.5, 2.0]),
        _ => random.range(-1.0, 1.0) as f32,
    }
}

/// A positive finite value of any size.
pub fn wild_positive(random: &mut Random) -> f32 {
    loop {
        let value = wild(random).abs();
        if value > 0.0 && value.is_finite() {
            return value;
        }
    }
}
