//! Vector files of the scalar functions: narrow, root, exp, log, max_zero, min, finite.

use std::collections::BTreeSet;

use lists::random::Random;

use crate::file::File;

/// Inputs of each file at least.
const RECORDS: usize = 4_500;

/// All exponents and signs with the fraction's ends, then random bits.
fn all_exponents() -> Vec<u32> {
    let mut inputs = Vec::new();
    for high in 0..=0x1ffu32 {
        for low in [0, 1, 0x40_0000, 0x7f_fffe, 0x7f_ffff] {
            inputs.push(high << 23 | low);
        }
    }
    inputs
}

/// Subnormal powers of two and their neighbours, both signs.
fn subnormals() -> Vec<u32> {
    let mut inputs = Vec::new();
    for place in 0..24 {
        for near in [(1u32 << place) - 1, 1 << place, (1 << place) + 1] {
            inputs.extend([near, near | 0x8000_0000]);
        }
    }
    inputs
}

/// The inputs without repeats, in their order, filled up to the count with more.
fn filled(mut inputs: Vec<u32>, mut more: impl FnMut() -> u32) -> Vec<u32> {
    let mut seen = BTreeSet::new();
    inputs.retain(|input| seen.insert(*input));
    while inputs.len() < RECORDS {
        let input = more();
        if seen.insert(input) {
            inputs.push(input);
        }
    }
    inputs
}

pub fn narrow(seed: u64) -> File {
    let mut random = Random::numbered(seed, 1);
    let mut inputs: Vec<u64> = Vec::new();
    // All exponents of f64, a fraction of few or many bits, both signs.
    for exponent in 0..0x800u64 {
        let fraction = (random.bits() >> 12) & (u64::MAX << random.below(52));
        inputs.push((random.bits() & 1) << 63 | exponent << 52 | fraction);
    }
    // Midpoints of neighbouring f32, of all exponents, and the f64 beside them.
    for exponent in 0..0xffu64 {
        let value = f32::from_bits((exponent << 23) as u32 | random.word() & 0x7f_ffff);
        let (low, high) = (f64::from(value), f64::from(value.next_up()));
        let middle = if high.is_infinite() {
            2f64.powi(128) - 2f64.powi(103)
        } else {
            (low + high) / 2.0
        };
        let sign = (random.bits() & 1) << 63;
        for near in [low, middle] {
            for bits in [
                near.to_bits().saturating_sub(1),
                near.to_bits(),
                near.to_bits() + 1,
            ] {
                inputs.push(sign | bits);
            }
        }
    }
    // The subnormal range and what vanishes below it, with ties.
    for exponent in -152i64..=-126 {
        for keep in [52, 51, 50, 40, 30, 29, 28, 27, 20, 4, 0] {
            let fraction = (random.bits() >> 12) >> keep << keep;
            inputs.push((random.bits() & 1) << 63 | ((exponent + 1023) as u64) << 52 | fraction);
        }
    }
    // The ends: zeros, infinities, NaNs, the least and the largest values and half a unit more.
    let edge = 2f64.powi(128) - 2f64.powi(103);
    for value in [
        0.0,
        f64::INFINITY,
        f64::MIN_POSITIVE,
        f64::from_bits(1),
        f64::MAX,
        edge,
        1.0,
        0.5,
    ] {
        for sign in [0, 1u64 << 63] {
            inputs.extend([sign | value.to_bits(), sign | (value.to_bits() + 1)]);
        }
    }
    inputs.extend([
        0x7ff8_0000_0000_0000,
        0xfff8_0000_0000_0000,
        0x7ff0_0000_0000_0001,
        0xffff_ffff_ffff_ffff,
    ]);
    while inputs.len() < RECORDS {
        inputs.push(random.bits());
    }
    let mut file = File::default();
    for input in inputs {
        file.record()
            .wide(input)
            .float(float::narrow(f64::from_bits(input)));
    }
    file
}

pub fn root(seed: u64) -> File {
    let mut random = Random::numbered(seed, 2);
    let mut inputs = all_exponents();
    inputs.extend(subnormals());
    // Squares and their neighbours; squares of midpoints, narrowed, and theirs.
    for _ in 0..250 {
        let root =
            f32::from_bits(random.word() & 0x7f_ffff | (random.between(64, 190) as u32) << 23);
        let middle = (f64::from(root) + f64::from(root.next_up())) / 2.0;
        for square in [root * root, (middle * middle) as f32] {
            let bits = square.to_bits();
            inputs.extend([bits - 1, bits, bits + 1]);
        }
    }
    // Whole squares, of which the root is exact.
    inputs.extend((1..100u32).map(|n| ((n * n) as f32).to_bits()));
    let inputs = filled(inputs, || random.word() & 0x7fff_ffff);
    unary(&inputs, |value| float::bits(float::root(value)))
}

pub fn exp(seed: u64) -> File {
    let mut random = Random::numbered(seed, 3);
    let mut inputs: Vec<u32> = all_exponents();
    inputs.extend(subnormals());
    for edge in [
        0.0f32, -104.0, -103.97208, -103.0, -87.33655, -88.02969, -1.0, -0.75, -1024.0,
    ] {
        for step in -20..=20i32 {
            inputs.push((edge.to_bits() as i32).wrapping_add(step) as u32);
        }
    }
    // The poles' own arguments: minus a tick over a lag.
    for _ in 0..400 {
        let (dt, lag) = (
            random.scaled(1e-4, 0.1) as f32,
            random.scaled(1e-3, 0.5) as f32,
        );
        inputs.push((-dt / lag).to_bits());
    }
    // 01 says what exp is at 0 and below: no NaN, nothing above 0.
    inputs.retain(|bits| f32::from_bits(*bits) <= 0.0);
    let inputs = filled(inputs, || {
        let x = match random.below(3) {
            0 => -random.range(0.0, 105.0) as f32,
            1 => -random.scaled(1e-8, 110.0) as f32,
            _ => -(random.range(100.0, 104.5)) as f32,
        };
        x.to_bits()
    });
    unary(&inputs, |value| float::bits(float::exp(value)))
}

pub fn log(seed: u64) -> File {
    let mut random = Random::numbered(seed, 7);
    let mut inputs = all_exponents();
    inputs.extend(subnormals());
    // The ends of m's range, 0.75 and 1.5 times a power of two, and their neighbours.
    let normal = (1..0xff).map(|field| field << 23 | 0x40_0000);
    let subnormal = (0..22).map(|place| 3 << place);
    for end in normal.chain(subnormal) {
        inputs.extend([end - 1, end, end + 1]);
    }
    let one = 1.0f32.to_bits();
    inputs.extend(one - 20..=one + 20);
    let inputs = filled(inputs, || match random.below(2) {
        0 => random.word() & 0x7fff_ffff,
        _ => (random.unit() as f32).to_bits(),
    });
    unary(&inputs, |value| float::bits(float::log(value)))
}

pub fn max_zero(seed: u64) -> File {
    let mut random = Random::numbered(seed, 4);
    let mut inputs = all_exponents();
    inputs.extend(subnormals());
    let inputs = filled(inputs, || random.word());
    unary(&inputs, |value| float::bits(float::max_zero(value)))
}

pub fn finite(seed: u64) -> File {
    let mut random = Random::numbered(seed, 5);
    let mut inputs = all_exponents();
    inputs.extend(subnormals());
    let inputs = filled(inputs, || random.word());
    unary(&inputs, |value| u32::from(float::is_finite(value)))
}

pub fn min(seed: u64) -> File {
    let mut random = Random::numbered(seed, 6);
    let edges = [
        0,
        0x8000_0000,
        1,
        0x8000_0001,
        0x007f_ffff,
        0x0080_0000,
        0x3f80_0000,
        0xbf80_0000,
        0x3f7f_ffff,
        0x3f80_0001,
        0x7f7f_ffff,
        0xff7f_ffff,
        0x7f80_0000,
        0xff80_0000,
        0x7fc0_0000,
        0xffc0_0000,
        0x7f80_0001,
    ];
    let mut inputs: Vec<[u32; 2]> = Vec::new();
    for a in edges {
        inputs.extend(edges.map(|b| [a, b]));
    }
    for a in all_exponents() {
        let b = match random.below(5) {
            0 => a,
            1 => a.wrapping_add(1),
            2 => a ^ 0x8000_0000,
            3 => random.pick(&edges),
            _ => random.word(),
        };
        inputs.push(if random.once_in(2) { [a, b] } else { [b, a] });
    }
    while inputs.len() < RECORDS {
        inputs.push([random.word(), random.word()]);
    }
    // 01 leaves open which of two zeros of unlike sign is the smaller.
    inputs.retain(|[a, b]| !(a != b && a & 0x7fff_ffff == 0 && b & 0x7fff_ffff == 0));
    let mut file = File::default();
    for [a, b] in inputs {
        let smaller = float::min(f32::from_bits(a), f32::from_bits(b));
        file.record().word(a).word(b).float(smaller);
    }
    file
}

fn unary(inputs: &[u32], answer: impl Fn(f32) -> u32) -> File {
    let mut file = File::default();
    for input in inputs {
        file.record()
            .word(*input)
            .word(answer(f32::from_bits(*input)));
    }
    file
}
