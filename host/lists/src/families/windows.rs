//! Windows made for the fits: held samples, ties, constants, overflow, few samples.

use reference::access::{self, Class};

use super::made::{config_for, extend, flown_ticks, noisy, spoil, tick_s, wild};
use crate::random::Random;
use crate::{Call, List};

pub fn held_runs(random: &mut Random, family: &'static str) -> List {
    let extension = random.once_in(3);
    let (config, mut calls, _) = noisy(random, extension);
    if random.once_in(2) {
        // Quiet enough for the recorded fit: the changes are small against 0.017.
        for call in &mut calls {
            call.rate *= 0.01;
        }
    }
    let lengths: &[usize] = random.pick(&[
        &[11, 12, 13][..],
        &[0, 1, 11, 12, 13, 14],
        &[12, 13],
        &[11, 12, 40, 60],
    ]);
    let mut place = random.pick(&[0, 0, 11, 12, 13]);
    while place < calls.len() {
        for _ in 0..random.pick(&[1, 1, 1, 2, 3]) {
            if place < calls.len() {
                spoil(random, &mut calls[place]);
                place += 1;
            }
        }
        place += random.pick(lengths);
    }
    List::new(random, family, &config, &calls)
}

/// A short stretch of wild readings between two held samples: the recorded fit does not see
/// it, the integrated one does.
pub fn wild_stretch(random: &mut Random, family: &'static str) -> List {
    let (config, mut calls, _) = noisy(random, false);
    if calls.len() < 20 {
        return List::new(random, family, &config, &calls);
    }
    for _ in 0..random.between(1, 3) {
        let length = random.between(1, 11.min(calls.len() - 2));
        let first = random.below(calls.len() - length - 1);
        spoil(random, &mut calls[first]);
        spoil(random, &mut calls[first + length]);
        let scale = random.pick(&[1e10, 1e17, 1e19, 1e25, 1e30, 3.4e38]);
        let which = random.below(3);
        for call in &mut calls[first + 1..first + length] {
            let wild = (scale * random.range(-1.0, 1.0)) as f32;
            match which {
                0 => call.rate = wild,
                1 => call.moment = wild,
                _ => (call.rate, call.moment) = (wild, (scale * random.range(-1.0, 1.0)) as f32),
            }
        }
    }
    List::new(random, family, &config, &calls)
}

/// Signals of few values: constants, ramps, periods shorter than the longest delay, so that
/// delays tie and sums do not solve.
pub fn ties(random: &mut Random, family: &'static str) -> List {
    let (ticks, dt) = (random.between(12, 120), tick_s(random));
    let config = config_for(random, ticks, dt);
    let mut calls = Vec::new();
    let shape = |random: &mut Random| {
        let unit = random.pick(&[0.125f32, 0.25, 1.0, 0.01]);
        let values: Vec<f32> = match random.below(6) {
            0 => vec![0.0],
            1 => vec![unit],
            2 => (0..ticks).map(|n| n as f32 * unit).collect(),
            3 => (0..random.between(2, 9))
                .map(|_| unit * random.between(0, 4) as f32)
                .collect(),
            4 => (0..ticks)
                .map(|_| unit * random.pick(&[-1.0, 0.0, 1.0]))
                .collect(),
            _ => (0..ticks)
                .map(|_| if random.once_in(5) { unit } else { 0.0 })
                .collect(),
        };
        values
    };
    let (rates, moments) = (shape(random), shape(random));
    for n in 0..flown_ticks(random, ticks) {
        calls.push(Call {
            dt,
            rate: rates[n % rates.len()],
            moment: moments[n % moments.len()],
        });
    }
    List::new(random, family, &config, &calls)
}

/// A moment that hardly varies, or varies in its first ticks alone, under noise: gain fits that
/// nearly, or do not, come out.
pub fn nearly_constant(random: &mut Random, family: &'static str) -> List {
    let (ticks, dt) = (
        random.between(13, 90),
        tick_s(random) * random.pick(&[1.0, 1.0, 10.0, 40.0]),
    );
    let config = config_for(random, ticks, dt);
    let level = random.scaled(1e-3, 0.9) as f32;
    let early = random.once_in(2);
    let (varied, variation) = if early {
        (random.between(1, 14), random.scaled(1e-3, 1.0))
    } else {
        (ticks, random.scaled(1e-7, 1e-4))
    };
    let noise = random.scaled(0.05, 50.0);
    let calls: Vec<Call> = (0..ticks)
        .map(|n| {
            let rate = (noise * random.normal()) as f32;
            let varying = level * (1.0 + (variation * random.normal()) as f32);
            Call {
                dt,
                rate,
                moment: if n < varied {
                    varying.clamp(-0.99, 0.99)
                } else {
                    level
                },
            }
        })
        .collect();
    List::new(random, family, &config, &calls)
}

/// One moment that is not 0, at ticks so long that neither a lag nor the integration carries it
/// on, and rates that stand still wherever a step could see it: each gain is 0, all weights of the
/// moment are 0, and the first step that sees the moment wins. Of a moment before tick 11, where
/// the gain fits begin, that is a half one; before tick 2 no recorded fit solves.
pub fn zero_gain(random: &mut Random, family: &'static str) -> List {
    const LONGEST_DELAY: usize = 10;
    let (ticks, dt) = (random.between(30, 60), random.range(52.5, 59.0) as f32);
    let config = config_for(random, ticks, dt);
    let seen = match random.below(4) {
        0 => random.between(LONGEST_DELAY + 1, ticks - 15),
        _ => random.between(2, LONGEST_DELAY),
    };
    let still = seen.max(LONGEST_DELAY + 1)..=seen + LONGEST_DELAY;
    let mut calls: Vec<Call> = Vec::new();
    for tick in 0..ticks {
        let noise = random.between(0, 64) as f32 / 16.0 - 2.0;
        calls.push(Call {
            dt,
            rate: match tick {
                _ if still.contains(&tick) => calls[tick - 1].rate,
                _ if tick + 1 == ticks => calls[LONGEST_DELAY].rate,
                _ => noise,
            },
            moment: if tick == seen {
                random.pick(&[1.0, -1.0, 0.5, 0.03])
            } else {
                0.0
            },
        });
    }
    List::new(random, family, &config, &calls)
}

/// Rates that walk so far that the integrated residual is infinite and the recorded one is not.
pub fn overflowing(random: &mut Random, family: &'static str) -> List {
    let (ticks, dt) = (random.between(13, 200), random.scaled(0.001, 0.006) as f32);
    let mut config = config_for(random, ticks, dt);
    if random.once_in(4) {
        extend(random, &mut config, ticks + 5, dt);
    }
    let scale = random.scaled(2e17, 4e18);
    let mut rate = 0.0;
    let calls: Vec<Call> = (0..ticks + 5)
        .map(|_| {
            rate += scale * random.normal();
            Call {
                dt,
                rate: rate as f32,
                moment: random.range(-0.9, 0.9) as f32,
            }
        })
        .collect();
    List::new(random, family, &config, &calls)
}

/// Noise of such a size that the recorded fit leaves just the residual that divides quiet from
/// noisy, or its neighbour.
pub fn noise_limit(random: &mut Random, family: &'static str) -> List {
    const LIMIT: f32 = 0.017;
    let (ticks, dt) = (random.between(20, 60), tick_s(random));
    let config = config_for(random, ticks, dt);
    let moment = random.range(0.1, 0.9);
    let rates: Vec<f64> = (0..ticks).map(|_| random.normal()).collect();
    let moments: Vec<f32> = (0..ticks)
        .map(|_| (moment * random.range(-1.0, 1.0)) as f32)
        .collect();
    let calls = |factor: f64| -> Vec<Call> {
        let call = |n: usize| Call {
            dt,
            rate: (factor * rates[n]) as f32,
            moment: moments[n],
        };
        (0..ticks).map(call).collect()
    };
    let residual = |factor: f64| {
        let ticks: Vec<[f32; 4]> = calls(factor)
            .iter()
            .map(|call| [call.dt, call.rate, call.moment, 0.0])
            .collect();
        access::fit_recorded(&access::recorded(&ticks)).map_or(0.0, |(_, residual)| residual)
    };
    let (mut quiet, mut noisy) = (1e-6, 10.0);
    for _ in 0..40 {
        let middle = (quiet + noisy) / 2.0;
        if residual(middle) <= LIMIT {
            quiet = middle;
        } else {
            noisy = middle;
        }
    }
    let wanted = random.pick(&[LIMIT, LIMIT, LIMIT, LIMIT.next_up(), LIMIT.next_down()]);
    let mut factor = quiet;
    for _ in 0..400 {
        if residual(factor) == wanted {
            break;
        }
        factor = quiet * (1.0 + random.range(-1e-6, 1e-6));
    }
    List::new(random, family, &config, &calls(factor))
}

pub fn short_window(random: &mut Random, family: &'static str) -> List {
    let (ticks, dt) = (random.between(0, 30), tick_s(random));
    let mut config = config_for(random, ticks, dt);
    if random.once_in(4) {
        let all = ticks + random.below(6);
        extend(random, &mut config, all, dt);
    }
    let flown = match random.below(3) {
        0 => random.between(0, 30),
        _ => ticks + random.below(3),
    };
    let (rates, moments) = (random.scaled(1e-3, 1e3), random.scaled(1e-3, 1.0));
    let mut calls: Vec<Call> = (0..flown)
        .map(|_| Call {
            dt,
            rate: (rates * random.range(-1.0, 1.0)) as f32,
            moment: (moments * random.range(-1.0, 1.0)) as f32,
        })
        .collect();
    if random.once_in(4) && !calls.is_empty() {
        let place = random.below(calls.len());
        spoil(random, &mut calls[place]);
    }
    List::new(random, family, &config, &calls)
}

/// Rows of five terms, as bits, whose squares are so small that the roundings of their products
/// make the sums of the one row solve. Found by trying millions at random.
const TINY_ROWS: [[u32; 5]; 12] = [
    [
        0x9a5e_ce6d,
        0x9ad5_fc37,
        0x9b8c_c8e3,
        0x9b1a_bd4f,
        0x1a12_2319,
    ],
    [
        0x9a90_525c,
        0x1aea_009d,
        0x9b0d_e315,
        0x9a02_43e5,
        0x1aad_0f34,
    ],
    [
        0x9a91_c6d7,
        0x9b42_b32a,
        0x9b49_4ee0,
        0x9b99_1c4e,
        0x1b9b_7cfd,
    ],
    [
        0x9a91_7ecc,
        0x1a12_95c0,
        0x1b5d_02cd,
        0x9b4d_e493,
        0x9b0e_6ca0,
    ],
    [
        0x1a91_fb93,
        0x9b26_8e7b,
        0x1b80_43f9,
        0x1b89_1c1d,
        0x9b04_d009,
    ],
    [
        0x1b69_b2d1,
        0x9bab_dfa7,
        0x1bb8_afef,
        0x1b42_edbb,
        0x9c04_1088,
    ],
    [
        0x1afc_179c,
        0x1bb1_b60d,
        0x9b95_45ff,
        0x1b56_de5e,
        0x9a20_da21,
    ],
    [
        0x9a90_a9fb,
        0x9b0c_c850,
        0x9aea_0cb2,
        0x1afd_fa7e,
        0x1a67_01bf,
    ],
    [
        0x1b14_3168,
        0x9b51_d6a8,
        0x1b38_4cd5,
        0x1b01_56c6,
        0x9b32_e815,
    ],
    [
        0x9a6c_d3b1,
        0x9b6a_cbdc,
        0x1bbd_4ba0,
        0x1b76_13a9,
        0x1b9b_c983,
    ],
    [
        0x9a65_91e3,
        0x9ad8_69db,
        0x9a03_2b0f,
        0x9b39_85cd,
        0x1b7b_4a3a,
    ],
    [
        0x1a93_1f30,
        0x9b3f_d837,
        0x9b8d_7126,
        0x9ad6_9109,
        0x1b69_0ecf,
    ],
];

/// Twelve samples and one row, in the subnormal range: the integrated fit is entered with too
/// few samples. Tried until the reference classifies the window so.
pub fn tiny_twelve(random: &mut Random, family: &'static str) -> List {
    let dt = tick_s(random);
    let mut config = config_for(random, 12, dt);
    if random.once_in(4) {
        // Thirteen samples where the extension is used, and then enough.
        extend(random, &mut config, 13, dt);
    }
    let mut calls = Vec::new();
    for _ in 0..100 {
        let row = random
            .pick(&TINY_ROWS)
            .map(|bits| f32::from_bits(bits) * random.pick(&[1.0, -1.0]));
        let [rate, difference, now, next, last] = row;
        calls = vec![
            Call {
                dt,
                rate: 0.0,
                moment: 0.0
            };
            12
        ];
        calls[9].rate = rate - difference;
        calls[10].rate = rate;
        calls[11].rate = random.scaled(100.0, 1e6) as f32 * random.pick(&[1.0, -1.0]);
        let delay = random.between(1, 10);
        calls[12 - delay].moment = now;
        calls[11 - delay].moment = next;
        calls[10 - delay].moment = last;
        let ticks: Vec<[f32; 4]> = calls
            .iter()
            .map(|call| [call.dt, call.rate, call.moment, 0.0])
            .collect();
        if access::classify(&access::recorded(&ticks)) == Class::Integrated {
            break;
        }
    }
    if random.once_in(4) {
        let (rate, moment) = (wild(random), wild(random));
        calls.push(Call { dt, rate, moment });
    }
    List::new(random, family, &config, &calls)
}
