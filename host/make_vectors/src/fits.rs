//! Vector files of the fits: tie rule, sums, Cholesky, recorded fits, poles, lags, gain fits,
//! integrated fits.

use std::collections::BTreeMap;

use lists::random::Random;
use lists::{FAMILIES, List};
use reference::access::{self, Class, DelaySums, RateModel, Samples, before_four, noted};
use reference::byte_run::{calls_of, config_of, sizes_fit};
use reference::probe::Probe;

use crate::file::File;
use crate::window;

/// The windows that lists of a seed leave, up to `longest` samples, with their family.
fn windows(seed: u64, longest: usize) -> impl Iterator<Item = (&'static str, Samples)> {
    (0u64..).filter_map(move |number| window_of(&lists::list(seed, number), longest))
}

/// The windows that lists of one family leave.
fn windows_of(name: &str, seed: u64, longest: usize) -> impl Iterator<Item = Samples> + use<> {
    let family = FAMILIES.iter().find(|family| family.name == name);
    let family = family.expect("a family of this name");
    (0u64..).filter_map(move |number| {
        let list = lists::of_family(family, seed, number);
        window_of(&list, longest).map(|(_, samples)| samples)
    })
}

/// The window that a list leaves, where it is not refused and not longer than `longest`.
fn window_of(list: &List, longest: usize) -> Option<(&'static str, Samples)> {
    if !sizes_fit(&list.config, &list.calls, &vec![0; list.output_len]) {
        return None;
    }
    let mut probe = Probe::new(config_of(&list.config)).ok()?;
    for call in calls_of(&list.calls) {
        if access::stored(probe.inner()) > longest {
            return None;
        }
        probe.step(call.dt, call.rate, call.moment).ok();
    }
    let samples = access::samples(probe.inner());
    (samples.len() <= longest).then_some((list.family, samples))
}

/// The tie rule over 21 entries.
pub fn ties(seed: u64) -> File {
    let mut random = Random::numbered(seed, 30);
    let mut file = File::default();
    /// An entry's place, effect and residual.
    type Entry = (usize, f32, f32);
    let marked: [(f32, &[Entry]); 6] = [
        (0.0, &[]),
        (0.0, &[(0, 1.0, 1.25), (1, 1.0, 1.0)]),
        (0.01, &[(0, 1.0, 1.007_812_5), (1, 1.0, 1.0)]),
        (0.0, &[(0, -1.0, 0.5), (1, 1.0, 2.0)]),
        (0.0, &[(0, 1.0, f32::INFINITY)]),
        (0.0, &[(20, 1.0, 1.0)]),
    ];
    for (share, entries) in marked {
        let mut fits = [None; 21];
        for &(place, effect, residual) in entries {
            fits[place] = Some((effect, residual));
        }
        tie(&mut file, share, &fits);
    }
    // Every list of up to two entries over a few effects and residuals.
    let effects = [1.0, -1.0, f32::NAN];
    let residuals = [0.0, 1.0, 1.007_812_5, 1.25, f32::INFINITY, f32::NAN];
    let choices: Vec<Option<(f32, f32)>> = std::iter::once(None)
        .chain(effects.iter().flat_map(|&effect| {
            residuals
                .iter()
                .map(move |&residual| Some((effect, residual)))
        }))
        .collect();
    for share in [0.0, 0.01] {
        for first in &choices {
            for second in &choices {
                let mut fits = [None; 21];
                fits[0] = *first;
                fits[1] = *second;
                tie(&mut file, share, &fits);
            }
        }
    }
    while file.records() < 1_750 {
        let share = random.pick(&[0.0, 0.01, 0.01, 0.01, 0.5]);
        let present = random.pick(&[1, 2, 3, 20, 21]);
        let kind = random.below(5);
        let least = random.scaled(1e-6, 1e3) as f32;
        let mut one = |_| {
            if random.below(21) >= present {
                return None;
            }
            let residual = match kind {
                // Whole numbers, which tie often.
                0 => random.between(0, 3) as f32,
                // Around the bar, to the last bit.
                1 => f32::from_bits(
                    ((least + 0.01 * least).to_bits() as i32 + random.between(0, 4) as i32 - 2)
                        as u32,
                ),
                2 => least * random.range(1.0, 1.03) as f32,
                3 => random.pick(&[0.0, 1.0, f32::INFINITY, f32::MAX, f32::NAN, 1e-45, -0.0]),
                _ => random.scaled(1e-3, 1e3) as f32,
            };
            let effect = match random.below(6) {
                0 => random.pick(&[0.0, -0.0, f32::NAN, f32::INFINITY, f32::NEG_INFINITY, 1e-45]),
                1 | 2 => -random.unit() as f32,
                _ => random.unit() as f32,
            };
            Some((
                effect,
                if kind == 1 && random.once_in(8) {
                    least
                } else {
                    residual
                },
            ))
        };
        let fits: [Option<(f32, f32)>; 21] = std::array::from_fn(&mut one);
        tie(&mut file, share, &fits);
    }
    file
}

fn tie(file: &mut File, share: f32, fits: &[Option<(f32, f32)>; 21]) {
    let present = (0..21).filter(|&place| fits[place].is_some());
    file.record()
        .input(share)
        .word(present.map(|place| 1 << place).sum());
    for fit in fits {
        let (effect, residual) = fit.unwrap_or((0.0, 0.0));
        file.input(effect).input(residual);
    }
    file.word(access::delay_to_fit(fits, share).map_or(0, |position| position as u32));
}

/// The sums of all ten delays over small windows.
pub fn sums(seed: u64) -> File {
    let mut file = File::default();
    for (family, samples) in windows(seed + 31, 40)
        .filter(|(_, samples)| samples.len() > 8)
        .take(85)
    {
        let (_, notes) = noted(|| access::fit_recorded(&samples));
        window::samples(file.record_of(family), &samples)
            .word(notes.rows.expect("a fit makes sums") as u32);
        for sums in access::recorded_sums(&samples) {
            delay_sums(&mut file, &sums, File::float);
        }
    }
    file
}

fn delay_sums(file: &mut File, sums: &DelaySums, word: fn(&mut File, f32) -> &mut File) {
    for value in sums.normal.iter().chain(&sums.projected) {
        word(file, *value);
    }
    word(file, sums.target_squared);
}

/// Cholesky's solution and the residual: sums of windows, the same spoiled, and random ones; then
/// those whose difference overflows.
pub fn solve(seed: u64) -> File {
    let mut random = Random::numbered(seed, 32);
    let mut file = File::default();
    for (family, samples) in windows(seed + 32, 200).filter(|(_, samples)| samples.len() > 11) {
        let all = access::recorded_sums(&samples);
        let mut sums = all[random.below(10)];
        match random.below(4) {
            0 => spoil(&mut random, &mut sums),
            1 => sums = random_sums(&mut random),
            _ => {}
        }
        solve_record(file.record_of(family), &sums);
        if file.records() == 950 {
            break;
        }
    }
    for sums in overflowing(&mut random) {
        solve_record(file.record(), &sums);
    }
    file
}

fn solve_record(file: &mut File, sums: &DelaySums) {
    delay_sums(file, sums, File::input);
    let solved = sums.solve();
    let (solution, residual) = solved.unwrap_or(([0.0; 6], 0.0));
    file.word(u32::from(solved.is_some()));
    for value in solution {
        file.float(value);
    }
    file.float(residual);
}

/// Sums of each kind that request four of 02 tells apart.
const EACH: usize = 20;

/// Sums with a finite solution whose difference before max is NaN or one of the infinities.
fn overflowing(random: &mut Random) -> Vec<DelaySums> {
    let mut kept: BTreeMap<u32, usize> = BTreeMap::new();
    let mut all = Vec::new();
    while all.len() < 3 * EACH {
        let mut sums = random_sums(random);
        let factor = random.scaled(1e10, 1e25) as f32;
        sums.projected = sums.projected.map(|value| factor * value);
        let squares = sums.target_squared;
        sums.target_squared = random.pick(&[squares, f32::MAX, f32::INFINITY]);
        let Some((solution, difference)) = sums.difference() else {
            continue;
        };
        let finite = solution.iter().all(|value| value.is_finite());
        let count = kept.entry(float::bits(difference)).or_default();
        if finite && !difference.is_finite() && *count < EACH {
            *count += 1;
            all.push(sums);
        }
    }
    all
}

fn spoil(random: &mut Random, sums: &mut DelaySums) {
    let wild = random.pick(&[
        f32::NAN,
        f32::INFINITY,
        f32::NEG_INFINITY,
        f32::MAX,
        0.0,
        -0.0,
        1e-42,
        -1.0,
        1e30,
    ]);
    match random.below(5) {
        // A diagonal, which decides on a fit.
        0..=2 => sums.normal[7 * random.below(6)] = wild,
        3 => sums.normal[random.below(36)] = wild,
        _ => sums.projected[random.below(6)] = wild,
    }
}

/// Sums that solve: a random lower half times its transpose, and a little on the diagonal.
fn random_sums(random: &mut Random) -> DelaySums {
    let scale = random.scaled(1e-12, 1e12);
    let factor: [[f64; 6]; 6] =
        std::array::from_fn(|_| std::array::from_fn(|_| random.range(-1.0, 1.0)));
    let entry = |i: usize, j: usize| {
        let sum: f64 = (0..6).map(|k| factor[i][k] * factor[j][k]).sum();
        (scale * (sum + if i == j { 0.01 } else { 0.0 })) as f32
    };
    DelaySums {
        normal: std::array::from_fn(|place| entry(place % 6, place / 6)),
        projected: std::array::from_fn(|_| (scale * random.range(-1.0, 1.0)) as f32),
        target_squared: (scale * random.range(0.0, 5.0)) as f32,
    }
}

fn model(file: &mut File, model: Option<RateModel>) {
    let (delay, floats) = match model {
        None => (0, [0.0; 6]),
        Some(model) => {
            let ([r1, r2], [m0, m1, m2]) = (model.rate_weights, model.moment_weights);
            (model.delay_ticks as u32, [r1, r2, m0, m1, m2, model.dt_s])
        }
    };
    file.word(delay);
    for value in floats {
        file.float(value);
    }
}

/// Whole recorded fits with the window's classification, as many of each answer.
pub fn recorded(seed: u64) -> File {
    let mut file = File::default();
    let mut kept: BTreeMap<u32, usize> = BTreeMap::new();
    for (family, samples) in windows(seed + 33, 120).filter(|(_, samples)| !samples.is_empty()) {
        let class = match access::classify(&samples) {
            Class::Integrated => 0,
            Class::Recorded(_) => 1,
            Class::Unexcited => 2,
            Class::Saturated => 3,
        };
        let count = kept.entry(class).or_default();
        if *count == 60 {
            if kept.len() == 4 && kept.values().all(|count| *count == 60) {
                break;
            }
            continue;
        }
        *count += 1;
        let fit = access::fit_recorded(&samples);
        window::samples(file.record_of(family), &samples).input(samples.duration_s);
        file.word(u32::from(fit.is_some()));
        model(&mut file, fit.map(|(model, _)| model));
        file.float(fit.map_or(0.0, |(_, residual)| residual))
            .word(class);
    }
    file
}

/// The 129 poles and the carry at many ticks.
pub fn poles(seed: u64) -> File {
    let mut random = Random::numbered(seed, 34);
    let mut ticks = vec![
        0.001,
        0.002,
        0.004,
        0.01,
        0.02,
        0.1,
        1.0,
        50.0,
        4096.0,
        1e-30,
        f32::from_bits(1),
    ];
    ticks.extend((0..80).map(|_| random.scaled(1e-5, 10.0) as f32));
    let mut file = File::default();
    for dt_s in ticks {
        file.record().input(dt_s);
        for pole in access::lag_poles(dt_s) {
            file.float(pole);
        }
        file.wide(access::carry(dt_s).to_bits());
    }
    file
}

/// Sixteen moments through a lag.
pub fn lagged(seed: u64) -> File {
    let mut random = Random::numbered(seed, 35);
    let mut file = File::default();
    for _ in 0..700 {
        let pole = match random.below(5) {
            0 => random.pick(&[0.0, 1.0, 0.5, f32::from_bits(1), 1.0f32.next_down()]),
            _ => random.unit() as f32,
        };
        let scale = random.pick(&[1.0, 1.0, 1.0, 1e-40, 1e-20, 1e30, 3.4e38]);
        let moments: Vec<f32> = (0..16)
            .map(|_| (scale * random.range(-1.0, 1.0)) as f32)
            .collect();
        file.record().input(pole);
        for moment in &moments {
            file.input(*moment);
        }
        for value in access::lag_through(&moments, pole) {
            file.float(value);
        }
    }
    file
}

/// Gain fits over small windows, a random pole and step each; then those that request four of 02
/// takes for none.
pub fn gain(seed: u64) -> File {
    let mut random = Random::numbered(seed, 36);
    let mut file = File::default();
    for (family, samples) in windows(seed + 36, 70).filter(|(_, samples)| samples.len() > 10) {
        gain_record(&mut file, family, &GainInput::random(&mut random, samples));
        if file.records() == 520 {
            break;
        }
    }
    for (family, is_wanted) in [
        ("gain beyond f32", f32::is_infinite as fn(f32) -> bool),
        // A gain of NaN makes the difference NaN.
        ("rates beyond f32 apart", f32::is_nan),
    ] {
        let inputs = windows_of(family, seed + 36, 70)
            .map(|samples| GainInput::random(&mut random, samples))
            .filter(|input| before_four(|| input.fit()).is_some_and(|(gain, _)| is_wanted(gain)));
        for input in inputs.take(EACH) {
            gain_record(&mut file, family, &input);
        }
    }
    file
}

/// What one gain fit is made of.
struct GainInput {
    rates: Vec<f32>,
    lagged: Vec<f32>,
    step: usize,
    carry: f64,
}

impl GainInput {
    /// A window with a random pole of its grid and a random step.
    fn random(random: &mut Random, samples: Samples) -> GainInput {
        let dt_s = samples.duration_s / samples.len() as f32;
        let poles = access::lag_poles(dt_s);
        let pole = random.pick(&poles);
        GainInput {
            step: random.below(20),
            carry: access::carry(dt_s),
            lagged: access::lag_through(&samples.moments, pole),
            rates: samples.rates,
        }
    }

    /// Gain and residual.
    fn fit(&self) -> Option<(f32, f32)> {
        access::fit_gain(&self.rates, &self.lagged, self.step, self.carry)
    }
}

fn gain_record(file: &mut File, family: &'static str, input: &GainInput) {
    file.record_of(family)
        .word(input.rates.len() as u32)
        .word(input.step as u32)
        .wide(input.carry.to_bits());
    for (rate, moment) in input.rates.iter().zip(&input.lagged) {
        file.input(*rate).input(*moment);
    }
    let fit = input.fit();
    let (gain, residual) = fit.unwrap_or((0.0, 0.0));
    file.word(u32::from(fit.is_some()))
        .float(gain)
        .float(residual);
}

/// Whole integrated fits: none for too few samples, none with no position, whole and half
/// steps, refinements that end early.
pub fn integrated(seed: u64) -> File {
    let mut file = File::default();
    let mut kept: BTreeMap<&str, usize> = BTreeMap::new();
    // The first 12, 13 and 14 samples of longer windows.
    for (number, (family, samples)) in windows(seed + 38, 130)
        .filter(|(_, samples)| samples.len() > 14)
        .take(30)
        .enumerate()
    {
        integrated_record(&mut file, family, &first(samples, 12 + number % 3));
    }
    for (family, samples) in windows(seed + 37, 130).take(60_000) {
        let few = samples.len() <= 12;
        if few && kept.get("few") == Some(&10) || samples.is_empty() {
            continue;
        }
        if !few && access::classify(&samples) != Class::Integrated {
            continue;
        }
        let (_, notes) = noted(|| access::fit_integrated(&samples));
        let (kind, most) = match notes.step {
            None if few => ("few", 10),
            None => ("none", 20),
            Some(_) if notes.gain_fits < 2_604 => ("early", 15),
            Some(step) if step % 2 == 1 => ("half", 50),
            Some(_) => ("whole", 50),
        };
        let count = kept.entry(kind).or_default();
        if *count == most {
            if kept.values().sum::<usize>() == 145 {
                break;
            }
            continue;
        }
        *count += 1;
        integrated_record(&mut file, family, &samples);
    }
    file
}

/// The first `count` samples of a window, and their share of its duration.
fn first(mut samples: Samples, count: usize) -> Samples {
    samples.duration_s *= count as f32 / samples.len() as f32;
    samples.rates.truncate(count);
    samples.moments.truncate(count);
    samples.offsets.truncate(count);
    samples.held.truncate(count);
    samples
}

fn integrated_record(file: &mut File, family: &'static str, samples: &Samples) {
    let (fit, notes) = noted(|| access::fit_integrated(samples));
    file.record_of(family)
        .word(samples.len() as u32)
        .input(samples.duration_s);
    for (rate, moment) in samples.rates.iter().zip(&samples.moments) {
        file.input(*rate).input(*moment);
    }
    file.word(u32::from(fit.is_some()))
        .word(notes.step.map_or(0, |step| step as u32));
    model(file, fit);
    file.word(notes.gain_fits);
}

/// What each step of the grid keeps, over windows that enter the integrated fit and windows of 13 and 14.
pub fn grid(seed: u64) -> File {
    let mut file = File::default();
    let entered = windows(seed + 39, 130)
        .filter(|(_, samples)| samples.len() > 14)
        .filter(|(_, samples)| access::classify(samples) == Class::Integrated)
        .enumerate()
        .map(|(number, (family, samples))| match number % 6 {
            0 => (family, first(samples, 13)),
            1 => (family, first(samples, 14)),
            _ => (family, samples),
        });
    for (family, samples) in entered.take(60) {
        let dt_s = samples.duration_s / samples.len() as f32;
        file.record_of(family)
            .word(samples.len() as u32)
            .input(dt_s);
        for (rate, moment) in samples.rates.iter().zip(&samples.moments) {
            file.input(*rate).input(*moment);
        }
        for kept in access::grid(&samples) {
            file.word(u32::from(kept.is_some()));
            for value in kept.map_or([0.0; 5], |fit| {
                [fit.pole, fit.low, fit.high, fit.gain, fit.residual]
            }) {
                file.float(value);
            }
        }
    }
    file
}
