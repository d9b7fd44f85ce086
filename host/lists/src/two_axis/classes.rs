//! Two windows, each of a class of its own at the end time, and an extension.

use reference::access::{self, Class};

use super::{TwoAxisCall, sprinkled};
use crate::families::made::{config_for, extend, spoil, tick_s};
use crate::flight::Airframe;
use crate::random::Random;
use crate::{Config, List};

/// What a window is to be classified as.
#[derive(Clone, Copy, Debug, PartialEq)]
pub enum Wanted {
    Recorded,
    Integrated,
    Unexcited,
    Saturated,
}

use Wanted::{Integrated, Recorded, Saturated, Unexcited};

impl Wanted {
    pub fn random(random: &mut Random) -> Wanted {
        random.pick(&[Recorded, Integrated, Unexcited, Saturated])
    }

    fn is(self, class: Class) -> bool {
        match class {
            Class::Recorded(_) => self == Recorded,
            Class::Integrated => self == Integrated,
            Class::Unexcited => self == Unexcited,
            Class::Saturated => self == Saturated,
        }
    }
}

/// Rate and moment of one axis at one tick.
pub type Reading = [f32; 2];

/// The readings of `ticks` ticks that are classified as wanted, as far as some tries go.
pub fn readings(random: &mut Random, wanted: Wanted, ticks: usize) -> Vec<Reading> {
    const TRIES: usize = 20;
    let mut made = Vec::new();
    for _ in 0..TRIES {
        made = match wanted {
            Unexcited => unexcited(random, ticks),
            _ => flown(random, wanted, ticks),
        };
        let samples: Vec<[f32; 4]> = made
            .iter()
            .map(|[rate, moment]| [0.01, *rate, *moment, 0.0])
            .collect();
        if wanted.is(access::classify(&access::recorded(&samples))) {
            break;
        }
    }
    made
}

/// A flight: quiet, noisy, or noisy with more than a fifth of its moments at the rail.
fn flown(random: &mut Random, wanted: Wanted, ticks: usize) -> Vec<Reading> {
    let dt = 0.01;
    let config = config_for(random, ticks, dt);
    let step = random.below(20);
    let mut airframe = Airframe::random(random, step);
    airframe.limit = 0.9;
    if wanted == Recorded {
        airframe.noise = random.pick(&[0.0, 1e-5, 0.003]);
        airframe.dither = airframe.dither.max(0.02);
    } else {
        airframe.noise = random.range(0.05, 0.5);
    }
    let calls = airframe.fly(random, &config, ticks, |_| dt);
    let mut readings: Vec<Reading> = calls.iter().map(|call| [call.rate, call.moment]).collect();
    if wanted == Saturated {
        for [_, moment] in readings.iter_mut().step_by(4) {
            *moment = random.pick(&[1.0, -1.0, 0.999, 1.5]);
        }
    }
    readings
}

/// Nothing that a fit could solve: constants, or too few good ticks in a row.
fn unexcited(random: &mut Random, ticks: usize) -> Vec<Reading> {
    let kind = random.below(4);
    let level = random.pick(&[0.0, 0.5, -1.0]);
    (0..ticks)
        .map(|tick| match kind {
            0 => [level, 0.0],
            1 => [random.range(-1.0, 1.0) as f32, level],
            2 => [f32::NAN, level],
            _ if tick % 12 == 0 => [1.0, f32::INFINITY],
            _ => [
                random.range(-1.0, 1.0) as f32,
                random.range(-1.0, 1.0) as f32,
            ],
        })
        .collect()
}

/// Both windows up to the end time, and the ticks that they take.
struct Pair {
    dt: f32,
    ticks: usize,
    config: Config,
    calls: Vec<TwoAxisCall>,
}

impl Pair {
    fn random(random: &mut Random) -> Pair {
        let ticks = match random.below(4) {
            0 => random.between(13, 24),
            _ => random.between(24, 110),
        };
        let dt = tick_s(random);
        let mut pair = Pair {
            dt,
            ticks,
            config: config_for(random, ticks, dt),
            calls: Vec::new(),
        };
        pair.fly(random, ticks);
        pair
    }

    /// `ticks` calls more, each axis of any class by itself.
    fn fly(&mut self, random: &mut Random, ticks: usize) {
        let [first, second] = [(); 2].map(|()| {
            let wanted = Wanted::random(random);
            readings(random, wanted, ticks)
        });
        for ([rate_1, moment_1], [rate_2, moment_2]) in first.into_iter().zip(second) {
            self.calls
                .push([self.dt, rate_1, moment_1, rate_2, moment_2]);
        }
        if random.once_in(6) {
            let place = random.below(self.calls.len());
            spoil_axis(random, &mut self.calls[place]);
        }
    }

    /// An extension to this many ticks in all.
    fn extend(&mut self, random: &mut Random, ticks: usize) {
        extend(random, &mut self.config, ticks, self.dt);
    }

    fn list(self, random: &mut Random, family: &'static str) -> List {
        sprinkled(random, family, &self.config, self.calls)
    }
}

/// A bad reading of one axis.
fn spoil_axis(random: &mut Random, call: &mut TwoAxisCall) {
    let first = 1 + 2 * random.below(2);
    let mut one = crate::Call {
        dt: call[0],
        rate: call[first],
        moment: call[first + 1],
    };
    spoil(random, &mut one);
    (call[first], call[first + 1]) = (one.rate, one.moment);
}

pub fn no_extension(random: &mut Random, family: &'static str) -> List {
    Pair::random(random).list(random, family)
}

/// Some ticks more, flown to the end of the extension or not.
pub fn extended(random: &mut Random, family: &'static str) -> List {
    let mut pair = Pair::random(random);
    let more = random.between(2, 60);
    pair.extend(random, pair.ticks + more);
    let flown = match random.below(5) {
        0 => random.between(1, more),
        _ => more,
    };
    pair.fly(random, flown);
    pair.list(random, family)
}

pub fn one_tick(random: &mut Random, family: &'static str) -> List {
    let mut pair = Pair::random(random);
    pair.extend(random, pair.ticks + 1);
    pair.fly(random, 2);
    pair.list(random, family)
}

/// An extension of the duration itself.
pub fn reached(random: &mut Random, family: &'static str) -> List {
    let mut pair = Pair::random(random);
    pair.extend(random, pair.ticks + 1);
    pair.config.extension_duration_s = pair.config.duration_s;
    pair.fly(random, 2);
    pair.list(random, family)
}

/// The call at the end time is so long that the extension's is passed too, or just met.
pub fn passed(random: &mut Random, family: &'static str) -> List {
    let mut pair = Pair::random(random);
    let more = random.between(2, 60);
    pair.extend(random, pair.ticks + more);
    let before: f32 = pair.calls[..pair.ticks - 1]
        .iter()
        .fold(0.0, |elapsed, call| elapsed + call[0]);
    let to_the_end = pair.config.extension_duration_s - before;
    pair.calls[pair.ticks - 1][0] = match random.below(3) {
        0 => to_the_end,
        1 => to_the_end.next_down(),
        _ => to_the_end * random.range(1.0, 9.0) as f32,
    };
    pair.fly(random, 2);
    pair.list(random, family)
}
