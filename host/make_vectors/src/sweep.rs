//! Vector files of the sweep: half periods, and single ticks from a state to the next.

use lists::random::Random;
use reference::access::{Sweep, half_period_s};

use crate::file::File;

/// Every index that an elapsed time of up to 4,096 s reaches, and some more.
const INDEXES: usize = 10_300;

pub fn half() -> File {
    let mut file = File::default();
    for index in 0..INDEXES {
        file.record().word(index as u32).float(half_period_s(index));
    }
    file
}

/// Sweeps of many kinds, tick after tick.
pub fn sweep(seed: u64) -> File {
    let mut random = Random::numbered(seed, 10);
    let mut file = File::default();
    while file.records() < 3_400 {
        let amplitude = match random.below(6) {
            0 => random.pick(&[f32::MAX, -f32::MAX, 3e38, f32::from_bits(1), 1e-40]),
            1 => -random.scaled(0.1, 10.0) as f32,
            _ => random.scaled(0.1, 10.0) as f32,
        };
        let washout_tc_s = match random.below(8) {
            0 => random.pick(&[f32::MAX, f32::MIN_POSITIVE, f32::from_bits(1), 1e-30]),
            _ => random.scaled(0.01, 100.0) as f32,
        };
        // The longest tick of this sweep: from a tenth of an edge to thousands of them.
        let longest = random.pick(&[0.004, 0.1, 0.5, 3.0, 100.0, 1500.0, 4096.0]);
        one_sweep(
            &mut random,
            &mut file,
            Sweep::new(amplitude, washout_tc_s),
            longest,
        );
    }
    file
}

fn one_sweep(random: &mut Random, file: &mut File, mut sweep: Sweep, longest: f64) {
    let mut elapsed_s = 0.0f32;
    for _ in 0..random.between(1, 40) {
        let dt = match random.below(12) {
            // Just up to the next edge, or past it by the least step.
            0 => (sweep.next_edge_s - elapsed_s).max(1e-6),
            1 => (sweep.next_edge_s - elapsed_s).max(1e-6).next_up(),
            2 => f32::from_bits(random.pick(&[1, 0x0080_0000, 0x0d00_0000])),
            _ => random.scaled(longest / 20.0, longest) as f32,
        };
        if elapsed_s + dt > 4096.0 {
            return;
        }
        elapsed_s += dt;
        state(file.record(), &sweep).input(dt).input(elapsed_s);
        let offset = sweep.next(dt, elapsed_s);
        let edge = sweep.edge as u32;
        file.word(edge)
            .float(sweep.next_edge_s)
            .word(u32::from(sweep.high))
            .float(sweep.washout)
            .float(offset);
        if random.once_in(20) {
            sweep.amplitude *= 2.0;
        }
    }
}

fn state<'a>(file: &'a mut File, sweep: &Sweep) -> &'a mut File {
    let edge = sweep.edge as u32;
    file.input(sweep.amplitude)
        .input(sweep.washout_tc_s)
        .word(edge)
        .input(sweep.next_edge_s);
    file.word(u32::from(sweep.high)).input(sweep.washout)
}
