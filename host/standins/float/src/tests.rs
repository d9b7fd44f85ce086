use super::*;

/// A generator of 64-bit numbers for these tests (splitmix64).
struct Random(u64);

impl Random {
    fn next(&mut self) -> u64 {
        self.0 = self.0.wrapping_add(0x9e37_79b9_7f4a_7c15);
        let mut z = self.0;
        z = (z ^ (z >> 30)).wrapping_mul(0xbf58_476d_1ce4_e5b9);
        z = (z ^ (z >> 27)).wrapping_mul(0x94d0_49bb_1331_11eb);
        z ^ (z >> 31)
    }
}

fn root_agrees(value: f32) {
    let (ours, theirs) = (root(value), value.sqrt());
    assert_eq!(bits(ours), bits(theirs), "root of {:08x}", value.to_bits());
}

#[test]
fn root_is_the_hardware_root() {
    // Every exponent and sign with few fractions, then random bits.
    for high in 0..=0x1ffu32 {
        for low in [
            0, 1, 2, 3, 0x3f_ffff, 0x40_0000, 0x40_0001, 0x7f_fffe, 0x7f_ffff,
        ] {
            root_agrees(f32::from_bits(high << 23 | low));
        }
    }
    let mut random = Random(1);
    for _ in 0..2_000_000 {
        root_agrees(f32::from_bits(random.next() as u32));
    }
    // Squares, their neighbours, and the midpoints' squares narrowed.
    for _ in 0..200_000 {
        let r = f32::from_bits(random.next() as u32 & 0x7fff_ffff);
        let square = (r * r).to_bits();
        for near in [square.wrapping_sub(1), square, square + 1] {
            root_agrees(f32::from_bits(near & 0x7fff_ffff));
        }
    }
    // All subnormal powers of two and the values below them.
    for place in 0..24 {
        root_agrees(f32::from_bits(1 << place));
        root_agrees(f32::from_bits((1 << place) - 1));
    }
}

fn narrow_agrees(value: f64) {
    let (ours, theirs) = (narrow(value), value as f32);
    assert_eq!(bits(ours), bits(theirs), "narrow {:016x}", value.to_bits());
}

#[test]
fn narrowing_is_the_hardware_narrowing() {
    let mut random = Random(2);
    for _ in 0..1_000_000 {
        narrow_agrees(f64::from_bits(random.next()));
    }
    // Around each f32 and each midpoint of two f32.
    for _ in 0..300_000 {
        let value = f32::from_bits(random.next() as u32);
        let wide = f64::from(value).to_bits();
        let middle = wide.wrapping_add(1 << 28);
        for near in [wide, middle] {
            for step in [0u64, 1, u64::MAX] {
                narrow_agrees(f64::from_bits(near.wrapping_add(step)));
            }
        }
    }
    // The subnormal range: every exponent from 2^-160 up to 2^-120, fractions of few bits.
    for exponent in 1023 - 160..1023 - 120u64 {
        for _ in 0..2_000 {
            let keep = random.next() % 53;
            let fraction = (random.next() & 0x000f_ffff_ffff_ffff) >> keep << keep;
            narrow_agrees(f64::from_bits(exponent << 52 | fraction));
        }
    }
    // Beyond the largest value: half a unit above it is the limit.
    let largest = f64::from(f32::MAX);
    let limit = largest + f64::from(f32::MAX) * 2f64.powi(-25);
    for near in [largest, limit] {
        for step in [-2i64, -1, 0, 1, 2] {
            narrow_agrees(f64::from_bits((near.to_bits() as i64 + step) as u64));
        }
    }
    narrow_agrees(f64::NAN);
    narrow_agrees(f64::INFINITY);
    narrow_agrees(f64::NEG_INFINITY);
    narrow_agrees(-0.0);
}

#[test]
fn max_and_min_are_those_of_01() {
    assert_eq!(max_zero(-0.0).to_bits(), 0);
    assert_eq!(max_zero(f32::NAN).to_bits(), 0);
    assert_eq!(max_zero(-3.0).to_bits(), 0);
    assert_eq!(max_zero(f32::INFINITY), f32::INFINITY);
    assert_eq!(max_zero_f64(-0.0).to_bits(), 0);
    assert_eq!(max_zero_f64(f64::NAN).to_bits(), 0);
    assert_eq!(min(f32::NAN, 2.0), 2.0);
    assert_eq!(min(2.0, f32::NAN), 2.0);
    assert!(min(f32::NAN, f32::NAN).is_nan());
    assert_eq!(min(3.0, 2.0), 2.0);
    assert_eq!(min(f32::NEG_INFINITY, 2.0), f32::NEG_INFINITY);
}

#[test]
fn exp_stays_in_0_to_1_and_near_the_true_value() {
    assert_eq!(exp(0.0).to_bits(), 1.0f32.to_bits());
    assert_eq!(exp(-0.0).to_bits(), 1.0f32.to_bits());
    assert_eq!(exp(f32::NEG_INFINITY).to_bits(), 0);
    assert_eq!(exp(-104.0).to_bits(), 0);
    assert_eq!(exp((-104.0_f32).next_down()).to_bits(), 0);
    assert_eq!(exp(-103.9).to_bits(), 1);
    let mut random = Random(3);
    for _ in 0..300_000 {
        let x = -f32::from_bits(random.next() as u32 & 0x7fff_ffff);
        if x.is_nan() {
            continue;
        }
        let power = exp(x);
        assert!((0.0..=1.0).contains(&power), "exp of {x}");
        let difference = (f64::from(power) - f64::from(x).exp()).abs();
        assert!(
            difference <= 1e-7 * f64::from(x).exp() + 1.5e-45,
            "exp of {x}: {power}"
        );
    }
}

#[test]
fn logarithms_worked_out_by_hand() {
    let log_bits = |bits: u32| super::bits(log(f32::from_bits(bits)));
    assert_eq!(log_bits(0x3f40_0000), 0xbe93_4b11, "0.75");
    assert_eq!(log_bits(0x3fc0_0000), 0x3ecf_991f, "1.5");
    assert_eq!(log_bits(0x3f7f_ffff), 0xb380_0000, "just below 1");
    assert_eq!(log_bits(0x0000_0001), 0xc2ce_8ed0, "the least value");
    assert_eq!(log_bits(0x3f80_0000), 0, "1");
    for zero in [0, 0x8000_0000] {
        assert_eq!(log_bits(zero), 0xff80_0000);
    }
    assert_eq!(log_bits(0x7f80_0000), 0x7f80_0000);
    for nothing in [
        0x8000_0001,
        0xbf80_0000,
        0xff80_0000,
        0x7fc0_0000,
        0xff80_0001,
    ] {
        assert_eq!(log_bits(nothing), NAN_BITS);
    }
}

#[test]
fn log_is_within_one_unit_of_the_true_value() {
    let mut random = Random(4);
    let near = |value: f32| {
        let (ours, theirs) = (log(value), f64::from(value).ln() as f32);
        let distance = (ours.to_bits() as i64 - theirs.to_bits() as i64).abs();
        assert!(distance <= 1, "log of {value}: {ours}, not {theirs}");
    };
    // Both ends of m's range for every exponent, and the values beside them.
    for field in 0..=0xfeu32 {
        for fraction in [0, 1, 0x3f_ffff, 0x40_0000, 0x40_0001, 0x7f_ffff] {
            near(f32::from_bits((field << 23 | fraction).max(1)));
        }
    }
    for place in 0..23 {
        near(f32::from_bits(1 << place));
        near(f32::from_bits(3 << place));
    }
    for _ in 0..1_000_000 {
        near(f32::from_bits(random.next() as u32 % 0x7f7f_ffff + 1));
    }
}

#[test]
fn finite_is_rusts() {
    for high in 0..=0x1ffu32 {
        for low in [0, 1, 0x40_0000, 0x7f_ffff] {
            let value = f32::from_bits(high << 23 | low);
            assert_eq!(is_finite(value), value.is_finite());
        }
    }
}
