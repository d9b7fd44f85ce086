//! Windows with numbers beyond f32: rates too far apart, recorded errors and gains too large, and
//! searches that such gains cut short.

use reference::access::{self, Candidate, Class, Samples};

use super::made::{config_for, extend, spoil, tick_s};
use crate::flight::Airframe;
use crate::random::Random;
use crate::{Call, Config, List};

/// A noisy flight with its moments below the rail: configuration, calls, and how many of these the
/// window takes. Now and then one or two come after its end.
fn noisy_flight(random: &mut Random, extension: bool) -> (Config, Vec<Call>, usize) {
    let (ticks, dt) = (random.between(40, 160), tick_s(random));
    let mut config = config_for(random, ticks, dt);
    let mut all = ticks;
    if extension {
        all += random.between(1, ticks);
        extend(random, &mut config, all, dt);
    }
    let step = random.below(20);
    let mut airframe = Airframe::random(random, step);
    airframe.noise = random.range(0.05, 0.5);
    airframe.limit = 0.9;
    let flown = all + random.pick(&[0, 0, 0, 1, 2]);
    (config, airframe.fly(random, &config, flown, |_| dt), all)
}

/// Two neighbouring rates further apart than f32 reaches, in a noisy flight.
pub fn rates_apart(random: &mut Random, family: &'static str) -> List {
    let extension = random.once_in(4);
    let (config, mut calls, ticks) = noisy_flight(random, extension);
    let place = place_for_two(random, &mut calls[..ticks]);
    for (call, rate) in calls[place..].iter_mut().zip(two_apart(random)) {
        if !call.rate.is_finite() {
            // Held by its moment instead, so that its rate is stored.
            call.moment = f32::NAN;
        }
        call.rate = rate;
    }
    List::new(random, family, &config, &calls)
}

/// The place of the first of two rates, with the held samples that belong to it.
fn place_for_two(random: &mut Random, calls: &mut [Call]) -> usize {
    let ticks = calls.len();
    match random.below(8) {
        // In 1 to 11 ticks between two held samples, or with one of these: no row sees it.
        0..=3 => {
            let (first, length) = between_held(random, calls);
            first + random.below(length + 1)
        }
        // In the first ticks after a held sample, with rows behind them.
        4 => {
            let first = random.between(11, ticks - 25);
            spoil(random, &mut calls[first]);
            first + 1 + random.below(11)
        }
        // Among rows.
        5 => random.between(12, ticks - 14),
        // In the first ticks: the gain fits begin at tick 11.
        6 => random.below(12),
        // In the last ticks, mostly after a held sample.
        _ => {
            let place = ticks - 2 - random.below(10);
            if !random.once_in(3) {
                spoil(random, &mut calls[place - 1]);
            }
            place
        }
    }
}

/// Two held samples and 1 to 11 good ones between them: the place of the first held one, and
/// how many are good.
fn between_held(random: &mut Random, calls: &mut [Call]) -> (usize, usize) {
    let length = random.between(1, 11);
    let first = random.between(4, calls.len() - length - 2);
    spoil(random, &mut calls[first]);
    spoil(random, &mut calls[first + length + 1]);
    (first, length)
}

/// Two rates of unlike sign whose difference is infinite in f32.
fn two_apart(random: &mut Random) -> [f32; 2] {
    let one = random.range(0.02, 1.0);
    let other = random.range(1.01 - one, 1.0);
    let sign = random.pick(&[1.0, -1.0]);
    [sign * one, -sign * other].map(|share| (share * f64::from(f32::MAX)) as f32)
}

/// A last rate so far off that squares or products of the recorded fits overflow: differences
/// before max that are NaN, or one of the infinities, at some delays or at all. Slow moments make
/// the parts of a solution large.
pub fn recorded_beyond(random: &mut Random, family: &'static str) -> List {
    let (ticks, dt) = (random.between(14, 120), tick_s(random));
    let mut config = config_for(random, ticks, dt);
    let mut all = ticks;
    if random.once_in(4) {
        all += random.between(1, 40);
        extend(random, &mut config, all, dt);
    }
    let (noise, dither) = (random.scaled(0.01, 1.0), random.pick(&[0.0, 1e-3, 1e-2]));
    // A point that goes round by `turn` each tick.
    let (turn, mut x, mut y) = (random.range(0.1, 0.8), random.range(0.1, 0.9), 0.0);
    let mut calls: Vec<Call> = (0..all)
        .map(|_| {
            x -= turn * y;
            y += turn * x;
            Call {
                dt,
                rate: (noise * random.normal()) as f32,
                moment: (y + dither * random.normal()) as f32,
            }
        })
        .collect();
    let far = match random.below(3) {
        // Squares within f32, and beyond it.
        0 | 1 => random.range(4e18, 1.84e19),
        _ => random.scaled(2e19, 3e38),
    };
    let last = random.pick(&[ticks, ticks, all]) - 1;
    calls[last].rate = far as f32 * random.pick(&[1.0, -1.0]);
    if random.once_in(4) {
        // An extension that is used is not flown to its end.
        calls.truncate(ticks + (all - ticks) / 2);
    }
    List::new(random, family, &config, &calls)
}

/// A stretch between two held samples with changes of rate so large against the moment that
/// gains are beyond f32, at some poles and steps or at all. The recorded fit does not see it.
pub fn gain_beyond(random: &mut Random, family: &'static str) -> List {
    if random.once_in(4) {
        return infinite_residual(random, family);
    }
    let (mut faint, mut size) = (Faint::random(random), LARGE);
    for _ in 0..TRIES {
        // Where the winner of the grid has a gain of the largest value.
        let limit = winner(&faint.samples(SMALL)).map(|(_, won)| size_at(won.gain));
        if let Some(limit) = limit.filter(|limit| *limit < LARGE) {
            size = limit * random.scaled(1.0, 16.0);
            break;
        }
        faint = Faint::random(random);
    }
    List::new(random, family, &faint.config, &faint.calls(size.min(LARGE)))
}

/// Changes of 1e36 to 3e38, and moments as much smaller than 1: each residual is infinite too.
fn infinite_residual(random: &mut Random, family: &'static str) -> List {
    let extension = random.once_in(4);
    let (config, mut calls, ticks) = noisy_flight(random, extension);
    let size = random.scaled(1e36, 1.6e38);
    let faintness = size / f64::from(f32::MAX) * random.scaled(0.005, 0.3);
    for call in &mut calls {
        call.moment *= faintness as f32;
    }
    let (first, length) = between_held(random, &mut calls[..ticks]);
    for call in &mut calls[first + 1..=first + length] {
        call.rate = (size * random.range(-1.0, 1.0)) as f32;
    }
    List::new(random, family, &config, &calls)
}

/// As with gains beyond f32, but the grid's winner has a gain just below the largest value and a
/// neighbouring pole has none: the refinement moves towards that pole and ends where a trial has
/// no fit. Tried until it ends before its last round.
pub fn search_cut_short(random: &mut Random, family: &'static str) -> List {
    let mut faint = Faint::random(random);
    let mut calls = faint.calls(SMALL);
    for _ in 0..TRIES {
        if let Some(size) = cutting_size(random, &faint) {
            calls = faint.calls(size);
            if cut_short(&faint.samples(size)) {
                break;
            }
        }
        faint = Faint::random(random);
    }
    List::new(random, family, &faint.config, &calls)
}

/// How often a window is tried.
const TRIES: usize = 12;

/// Whether the integrated fit is entered and its refinement ends before the last round.
fn cut_short(samples: &Samples) -> bool {
    let (_, notes) = access::noted(|| access::fit_integrated(samples));
    access::classify(samples) == Class::Integrated && (2_582..2_604).contains(&notes.gain_fits)
}

/// A size of the wild stretch at which all gains are finite, and one at which all residuals are.
const SMALL: f64 = 1e10;
const LARGE: f64 = 1.6e18;

/// The size at which a gain of the stretch of size [`SMALL`] becomes the largest value.
fn size_at(gain: f32) -> f64 {
    SMALL * f64::from(f32::MAX) / f64::from(gain.abs())
}

/// The size at which a pole that some round of the refinement tries has a gain just beyond f32.
fn cutting_size(random: &mut Random, faint: &Faint) -> Option<f64> {
    let samples = faint.samples(SMALL);
    let (step, won) = winner(&samples)?;
    let gain = |pole: f32| gain_at(&samples, pole, step);
    let poles = access::lag_poles(samples.duration_s / samples.len() as f32);
    let place = poles.iter().position(|pole| *pole == won.pole)?;
    // The pole that is to win stands `away` from this one, on the side of smaller gains. Its
    // neighbour `outer` is to have no fit; `inner` is the other neighbour.
    let away = random.between(1, 5);
    let rising = gain(won.high)?.abs() > gain(won.low)?.abs();
    let (outer, inner) = if rising {
        let kept = place.checked_sub(away)?;
        (poles[kept + 1], poles[kept.checked_sub(1)?])
    } else {
        let kept = place + away;
        (*poles.get(kept - 1)?, *poles.get(kept + 1)?)
    };
    // Round r tries a pole at 0.382·0.618^(r - 1) of the bracket from that end.
    let round = random.between(1, 11);
    let tried = (1..round).fold(0.382, |share, _| 0.618 * share);
    let share = (tried * random.range(1.02, 1.25)) as f32;
    Some(size_at(gain(outer + share * (inner - outer))?))
}

/// The step that wins the grid, and its candidate.
fn winner(samples: &Samples) -> Option<(usize, Candidate)> {
    let kept = access::grid(samples);
    let entries = kept.map(|kept| kept.map(|kept| (kept.gain, kept.residual)));
    let step = access::delay_to_fit(&entries, 0.0)? - 1;
    Some((step, kept[step]?))
}

/// The gain at a pole and a step.
fn gain_at(samples: &Samples, pole: f32, step: usize) -> Option<f32> {
    let carry = access::carry(samples.duration_s / samples.len() as f32);
    let lagged = access::lag_through(&samples.moments, pole);
    let fit = access::fit_gain(&samples.rates, &lagged, step, carry);
    fit.map(|(gain, _)| gain)
}

/// A noisy window whose moments are so faint that its squares of changes stay within f32 where
/// its gains do not, with a wild stretch between two held samples, whose size is open.
struct Faint {
    config: Config,
    /// The calls without the stretch.
    plain: Vec<Call>,
    /// The place of the first wild rate, and the wild rates at size 1.
    first: usize,
    wild: Vec<f64>,
}

impl Faint {
    fn random(random: &mut Random) -> Faint {
        let (ticks, dt) = (random.between(30, 110), tick_s(random));
        let config = config_for(random, ticks, dt);
        let (noise, moment) = (random.scaled(0.05, 2.0), random.scaled(1.2e-22, 5e-22));
        let mut plain: Vec<Call> = (0..ticks)
            .map(|_| Call {
                dt,
                rate: (noise * random.normal()) as f32,
                moment: (moment * random.range(-1.0, 1.0)) as f32,
            })
            .collect();
        let length = random.between(2, 11);
        let held = random.between(11, ticks - length - 2);
        let wild = wild_rates(random, &plain, held + 1, length);
        spoil(random, &mut plain[held]);
        spoil(random, &mut plain[held + length + 1]);
        Faint {
            config,
            plain,
            first: held + 1,
            wild,
        }
    }

    fn calls(&self, size: f64) -> Vec<Call> {
        let mut calls = self.plain.clone();
        for (call, wild) in calls[self.first..].iter_mut().zip(&self.wild) {
            call.rate = (size * wild) as f32;
        }
        calls
    }

    /// The window after these calls.
    fn samples(&self, size: f64) -> Samples {
        let calls = self.calls(size);
        let ticks: Vec<[f32; 4]> = calls
            .iter()
            .map(|call| [call.dt, call.rate, call.moment, 0.0])
            .collect();
        access::recorded(&ticks)
    }
}

/// Rates from -1 to 1 of a stretch: those that the moments make through a lag and a delay, or
/// random ones.
fn wild_rates(random: &mut Random, calls: &[Call], first: usize, length: usize) -> Vec<f64> {
    let mut rates: Vec<f64> = (0..length).map(|_| random.range(-1.0, 1.0)).collect();
    if !random.once_in(4) {
        let (pole, delay) = (random.range(0.0, 1.0), random.between(1, 10));
        let (mut lagged, mut rate) = (0.0, 0.0);
        for tick in 0..first + length {
            if tick + 1 >= delay {
                lagged += (1.0 - pole) * (f64::from(calls[tick + 1 - delay].moment) - lagged);
            }
            if tick >= first {
                rate += lagged;
                rates[tick - first] = rate;
            }
        }
    }
    let largest = rates.iter().fold(0.0f64, |most, rate| most.max(rate.abs()));
    rates.iter().map(|rate| rate / largest).collect()
}
