//! Reports from a seed for the plain units: any kind, and models of odd numbers, in families.

use crate::random::Random;

/// A report's bytes, and the length of the output that it is asked with.
#[derive(Clone, Debug, PartialEq)]
pub struct Report {
    pub family: &'static str,
    pub bytes: Vec<u8>,
    pub output_len: usize,
}

/// Report `number` of `seed`. The family follows from the number.
pub fn report(seed: u64, number: u64) -> Report {
    let (family, make) = FAMILIES[(number % FAMILIES.len() as u64) as usize];
    let mut random = Random::numbered(seed, number);
    let model = make(&mut random);
    Report {
        family,
        bytes: bytes(&mut random, model),
        output_len: 12,
    }
}

/// Report `number` of `seed` with other sizes than 36 and 12 bytes.
pub fn wrong_sizes(seed: u64, number: u64) -> Report {
    const SIZES: [usize; 6] = [35, 36, 37, 0, 12, 72];
    const OUTPUTS: [usize; 6] = [11, 12, 13, 0, 36, 24];
    let mut report = report(seed, number);
    let mut random = Random::numbered(seed, number);
    while report.bytes.len() == 36 && report.output_len == 12 {
        let last = random.word() as u8;
        report.bytes.resize(random.pick(&SIZES), last);
        report.output_len = random.pick(&OUTPUTS);
    }
    report.family = "wrong sizes";
    report
}

/// The numbers of a model that the plain units read. The first rate weight they do not.
struct Model {
    pole: f32,
    moments: [f32; 3],
    dt_s: f32,
}

type Make = fn(&mut Random) -> Model;

const FAMILIES: [(&str, Make); 10] = [
    ("as a fit leaves it", as_fitted),
    ("any bits", any_bits),
    ("NaN among the numbers", with_nan),
    ("pole at 0, -0 and 1", |random| Model {
        pole: pole_at_an_edge(random),
        ..mixed(random)
    }),
    ("pole of any exponent", |random| Model {
        pole: pole_of_any_exponent(random),
        ..mixed(random)
    }),
    ("pole of 1 or more", |random| Model {
        pole: pole_of_1_or_more(random),
        ..mixed(random)
    }),
    ("odd dt_s", |random| Model {
        dt_s: odd_dt_s(random),
        ..mixed(random)
    }),
    ("odd moment weights", |random| Model {
        moments: odd_moments(random),
        ..mixed(random)
    }),
    ("divisor that underflows", underflowing),
    ("odd in all", |random| Model {
        pole: odd_pole(random),
        moments: odd_moments(random),
        dt_s: odd_dt_s(random),
    }),
];

/// A report of a model: mostly done, else of any kind; its other fields and first rate weight are
/// any bits.
fn bytes(random: &mut Random, model: Model) -> Vec<u8> {
    let kind = if random.once_in(4) {
        random.below(4) as u32
    } else {
        1
    };
    let head = random.word() >> 2 | kind << 30;
    let Model {
        pole,
        moments: [m0, m1, m2],
        dt_s,
    } = model;
    let mut words = vec![head, random.word(), random.word(), random.word()];
    words.push(pole.to_bits() ^ 0x8000_0000);
    words.extend([m0, m1, m2, dt_s].map(f32::to_bits));
    words.iter().flat_map(|word| word.to_be_bytes()).collect()
}

/// Ordinary numbers, the moment weights those of a whole or a half delay, or three.
fn as_fitted(random: &mut Random) -> Model {
    let pole = match random.below(6) {
        0 => 0.0,
        1 => -random.scaled(1e-6, 0.5) as f32,
        _ => random.unit() as f32,
    };
    let gain = random.range(-0.1, 0.6) as f32;
    let moments = match random.below(3) {
        0 => [gain, 0.0, 0.0],
        1 => [gain, gain, 0.0],
        _ => [
            gain,
            random.range(-0.3, 0.3) as f32,
            random.range(-0.3, 0.3) as f32,
        ],
    };
    Model {
        pole,
        moments,
        dt_s: random.scaled(0.0005, 0.04) as f32,
    }
}

/// Ordinary numbers, each odd once in four.
fn mixed(random: &mut Random) -> Model {
    let mut model = as_fitted(random);
    if random.once_in(4) {
        model.pole = odd_pole(random);
    }
    if random.once_in(4) {
        model.moments = odd_moments(random);
    }
    if random.once_in(4) {
        model.dt_s = odd_dt_s(random);
    }
    model
}

fn any_bits(random: &mut Random) -> Model {
    let mut any = || f32::from_bits(random.word());
    Model {
        pole: any(),
        moments: [any(), any(), any()],
        dt_s: any(),
    }
}

/// A NaN of either sign and any fraction.
fn nan(random: &mut Random) -> f32 {
    let bits = random.word();
    let fraction = random.pick(&[1, 0x40_0000, 0x7f_ffff, bits & 0x7f_ffff | 1]);
    f32::from_bits(bits & 0x8000_0000 | 0x7f80_0000 | fraction)
}

fn with_nan(random: &mut Random) -> Model {
    let mut model = mixed(random);
    match random.below(5) {
        0 => model.pole = nan(random),
        1 => model.dt_s = nan(random),
        place => model.moments[place - 2] = nan(random),
    }
    model
}

/// 0, -0 or 1, or up to 20 units beside it.
fn pole_at_an_edge(random: &mut Random) -> f32 {
    let steps = if random.once_in(4) {
        0
    } else {
        random.between(1, 20) as u32
    };
    let one = 1.0f32.to_bits();
    f32::from_bits(random.pick(&[steps, 0x8000_0000 | steps, one - steps, one + steps]))
}

/// A pole between 0 and 1 of any exponent, subnormals too, at the ends of the logarithm's range
/// of m now and then.
fn pole_of_any_exponent(random: &mut Random) -> f32 {
    let field = random.below(0x7f) as u32;
    let fraction = match random.below(4) {
        0 => random.pick(&[0, 1, 0x3f_ffff, 0x40_0000, 0x40_0001, 0x7f_ffff]),
        _ => random.word() & 0x7f_ffff,
    };
    f32::from_bits((field << 23 | fraction).max(1))
}

fn pole_of_1_or_more(random: &mut Random) -> f32 {
    match random.below(4) {
        0 => random.range(1.0, 1.1) as f32,
        1 => random.pick(&[1.0, f32::INFINITY, f32::MAX, 2.0]),
        _ => f32::from_bits(random.between(0x3f80_0000, 0x7f80_0000) as u32),
    }
}

fn odd_pole(random: &mut Random) -> f32 {
    match random.below(6) {
        0 | 1 => pole_at_an_edge(random),
        2 | 3 => pole_of_any_exponent(random),
        4 => -pole_of_any_exponent(random),
        _ => pole_of_1_or_more(random),
    }
}

/// Subnormal, least, huge, infinite, NaN, negative or 0.
fn odd_dt_s(random: &mut Random) -> f32 {
    let ordinary = random.scaled(0.0005, 0.04) as f32;
    match random.below(8) {
        0 => f32::from_bits(random.word() & 0x7f_ffff),
        1 => random.pick(&[f32::from_bits(1), f32::from_bits(2), f32::MIN_POSITIVE]),
        2 => random.scaled(1e30, 3.4e38) as f32,
        3 => random.pick(&[f32::INFINITY, f32::NEG_INFINITY, f32::MAX, f32::MIN]),
        4 => nan(random),
        5 => -ordinary,
        6 => random.pick(&[0.0, -0.0]),
        _ => -f32::from_bits(random.word() & 0x7fff_ffff),
    }
}

/// Zeros of both signs, large values of unlike sign, infinities, subnormals.
fn odd_moments(random: &mut Random) -> [f32; 3] {
    let large = random.scaled(1e30, 3.4e38) as f32;
    let ordinary = random.range(-1.0, 1.0) as f32;
    match random.below(7) {
        0 => [-0.0; 3],
        1 => [(); 3].map(|()| random.pick(&[0.0, -0.0])),
        2 => random.pick(&[
            [large, -large, ordinary],
            [large, ordinary, -large],
            [ordinary, large, -large],
            [large, large, -large],
            [-large, -large, large],
        ]),
        3 => [ordinary, -ordinary, random.pick(&[0.0, -0.0])],
        4 => [(); 3].map(|()| random.pick(&[f32::INFINITY, f32::NEG_INFINITY, ordinary])),
        5 => [(); 3].map(|()| f32::from_bits(random.word() & 0x807f_ffff)),
        _ => [(); 3].map(|()| f32::from_bits(random.word())),
    }
}

/// A pole so near to 1, and a tick so short, that their product is subnormal or 0.
fn underflowing(random: &mut Random) -> Model {
    let below_1 = 1.0 - random.scaled(6e-8, 1e-3) as f32;
    let model = mixed(random);
    Model {
        pole: below_1,
        moments: if random.once_in(3) {
            [0.0, -0.0, 0.0]
        } else {
            model.moments
        },
        dt_s: match random.below(3) {
            0 => f32::from_bits(random.word() & 0x7f_ffff),
            1 => f32::from_bits(random.between(1, 40) as u32),
            _ => random.scaled(1e-40, 1e-33) as f32,
        },
    }
}
