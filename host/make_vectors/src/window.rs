//! Vector files of the window: counts over patterns of bad readings, and whole windows.

use lists::random::Random;
use reference::access::{IdentifyConfig, Samples, recorded};
use reference::account::Account;
use reference::byte_run::Call;
use reference::probe::Probe;

use crate::file::File;

/// Held, warm and rows of an ended window of good and bad (true) readings.
fn counts(bad: impl Iterator<Item = bool>) -> [u32; 3] {
    let calls: Vec<Call> = bad
        .map(|bad| Call {
            dt: 1.0,
            rate: if bad { f32::NAN } else { 0.0 },
            moment: 0.0,
        })
        .collect();
    let duration_s = (calls.len() as f32).max(1.0);
    let config = IdentifyConfig {
        amplitude: 1.0,
        duration_s,
        washout_tc_s: 1.0,
        noisy: None,
    };
    let account = Account::of(&config, calls.iter().copied());
    let (warm, rows) = account.warm_and_rows();
    if !calls.is_empty() {
        let mut probe = Probe::new(config).expect("a good configuration");
        for call in &calls {
            probe
                .step(call.dt, call.rate, call.moment)
                .expect("a good call");
        }
        let report = probe.report();
        assert_eq!(
            [report.held, report.warm, report.rows],
            [account.held(), warm, rows]
        );
    }
    [account.held(), warm, rows]
}

/// Every pattern of bad readings up to length 14.
pub fn patterns() -> File {
    let mut file = File::default();
    for length in 0..=14u32 {
        for pattern in 0..1u32 << length {
            let [held, warm, rows] = counts((0..length).map(|place| pattern >> place & 1 == 1));
            let [high, low] = (pattern as u16).to_be_bytes();
            file.record()
                .bytes(&[high, low, length as u8, held as u8, warm as u8, rows as u8]);
        }
    }
    file
}

/// Every pattern up to length 8 between stretches of good readings.
pub fn around() -> File {
    let mut file = File::default();
    for (before, after) in [
        (11, 0),
        (12, 0),
        (0, 12),
        (5, 13),
        (11, 11),
        (12, 12),
        (24, 25),
    ] {
        for length in 0..=8u32 {
            for pattern in 0..1u32 << length {
                let middle = (0..length).map(|place| pattern >> place & 1 == 1);
                let good = |count| std::iter::repeat_n(false, count);
                let [held, warm, rows] = counts(good(before).chain(middle).chain(good(after)));
                let fields = [
                    before as u32,
                    length,
                    pattern,
                    after as u32,
                    held,
                    warm,
                    rows,
                    0,
                ];
                file.record().bytes(&fields.map(|field| field as u8));
            }
        }
    }
    file
}

/// A reading: mostly good, now and then of any kind.
fn reading(random: &mut Random, bad_once_in: usize) -> f32 {
    if random.once_in(bad_once_in) {
        f32::from_bits(random.pick(&[
            0x7f80_0000,
            0xff80_0000,
            0x7fc0_0000,
            0xffff_ffff,
            0x7f80_0001,
        ]))
    } else if random.once_in(10) {
        f32::from_bits(random.pick(&[0, 0x8000_0000, 1, 0x8000_0001, 0x7f7f_ffff, 0xff7f_ffff]))
    } else {
        random.range(-2.0, 2.0) as f32
    }
}

/// Whole windows: short ones, and one of more than 2,048 ticks.
pub fn windows(seed: u64) -> File {
    let mut random = Random::numbered(seed, 20);
    let mut lengths = vec![0, 1, 2, 11, 12, 13, 24, 2_060];
    lengths.extend((0..80).map(|_| random.between(1, 60)));
    let mut file = File::default();
    for length in lengths {
        let bad_once_in = random.pick(&[1, 2, 6, 15, 40, 1_000]);
        let ticks: Vec<[f32; 4]> = (0..length)
            .map(|_| {
                let dt = random.scaled(1e-4, 10.0) as f32;
                let (rate, moment) = (
                    reading(&mut random, bad_once_in),
                    reading(&mut random, bad_once_in),
                );
                [dt, rate, moment, random.range(-3.0, 3.0) as f32]
            })
            .collect();
        file.record().word(length as u32);
        for value in ticks.iter().flatten() {
            file.input(*value);
        }
        let samples = recorded(&ticks);
        let [held, warm, rows] = counts(samples.held.iter().copied());
        file.word(samples.len() as u32)
            .word(held)
            .word(warm)
            .word(rows)
            .float(samples.duration_s);
        for place in 0..samples.len() {
            file.float(samples.rates[place])
                .float(samples.moments[place])
                .float(samples.offsets[place]);
            file.word(u32::from(samples.held[place]));
        }
    }
    file
}

/// Writes a window's length and its samples: rate, moment, mark.
pub fn samples<'a>(file: &'a mut File, samples: &Samples) -> &'a mut File {
    file.word(samples.len() as u32);
    for place in 0..samples.len() {
        file.input(samples.rates[place])
            .input(samples.moments[place])
            .word(u32::from(samples.held[place]));
    }
    file
}
