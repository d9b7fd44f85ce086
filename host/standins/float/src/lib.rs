//! The scalar functions of document 01, "Stand-ins for libm and nalgebra", worked out from the
//! bits: root, narrowing, exp, max(v, 0), min; and document 02's logarithm.

/// The bits that every NaN of a report or a vector file has.
pub const NAN_BITS: u32 = 0x7fc0_0000;

/// The logarithm of 2.
#[allow(clippy::approx_constant, reason = "02's own digits")]
const LOG_OF_2: f64 = 0.6931471805599453;

/// The bits of `value`, a NaN's always [`NAN_BITS`].
///
/// Tested on bits that the compiler cannot see through: LLVM takes one NaN for another, and has
/// been seen to drop a test of the float itself where the value comes from a hardware root.
pub fn bits(value: f32) -> u32 {
    let bits = std::hint::black_box(value.to_bits());
    if bits & 0x7fff_ffff > 0x7f80_0000 {
        NAN_BITS
    } else {
        bits
    }
}

/// Whether [`root`] is the machine's.
pub const HARDWARE_ROOT: bool = cfg!(feature = "hardware_root");

/// The nearest f32 to the exact root of a positive finite value; 0 of 0, infinity of infinity.
/// NaN of a NaN and of a negative value other than -0.
///
/// With the feature `hardware_root` it is the machine's root, which is correctly rounded too.
pub fn root(value: f32) -> f32 {
    if HARDWARE_ROOT {
        return value.sqrt();
    }
    if value == 0.0 || value == f32::INFINITY {
        return value;
    }
    if value.is_nan() || value < 0.0 {
        return f32::NAN;
    }
    let (significand, exponent) = parts(value);
    // The highest set bit to place 23, or to 24 where that makes the exponent odd.
    let shift = significand.leading_zeros() as i32 - 8;
    let (shift, exponent) = match (exponent - shift) % 2 {
        0 => (shift + 1, exponent - shift - 1),
        _ => (shift, exponent - shift),
    };
    // value = square · 2^(2 · half_exponent), square from 2^46 to below 2^48
    let square = u64::from(significand) << (shift + 23);
    let half_exponent = (exponent - 23) / 2;
    let whole = whole_root(square);
    // (whole + 1/2)² is whole² + whole + 1/4: no tie.
    let nearest = if square > whole * whole + whole {
        whole + 1
    } else {
        whole
    };
    // A carry to 2^24 moves into the exponent's field by itself.
    f32::from_bits((((half_exponent + 149) as u32) << 23) + nearest as u32)
}

/// The significand and exponent of a positive finite `value`: significand · 2^exponent.
fn parts(value: f32) -> (u32, i32) {
    let field = (value.to_bits() >> 23) as i32;
    let fraction = value.to_bits() & 0x007f_ffff;
    match field {
        0 => (fraction, -149),
        _ => (fraction | 0x0080_0000, field - 150),
    }
}

/// The whole part of the root of a `square` below 2^48, bit by bit.
fn whole_root(square: u64) -> u64 {
    let mut root = 0u64;
    for place in (0..24).rev() {
        let tried = root | (1 << place);
        if tried * tried <= square {
            root = tried;
        }
    }
    root
}

/// `value` as an f32: nearest, ties to even, subnormals kept, beyond range infinite, NaN
/// staying NaN.
pub fn narrow(value: f64) -> f32 {
    if value.is_nan() {
        return f32::from_bits(NAN_BITS);
    }
    let bits = value.to_bits();
    let sign = ((bits >> 63) as u32) << 31;
    let field = (bits >> 52) as i32 & 0x7ff;
    let fraction = bits & 0x000f_ffff_ffff_ffff;
    if field == 0x7ff {
        return f32::from_bits(sign | 0x7f80_0000);
    }
    // |value| = significand · 2^exponent
    let (significand, exponent) = match field {
        0 => (fraction, -1074),
        _ => (fraction | 0x0010_0000_0000_0000, field - 1075),
    };
    if significand == 0 {
        return f32::from_bits(sign);
    }
    let highest = 63 - significand.leading_zeros() as i32;
    // The answer is a multiple of 2^unit with at most 24 bits.
    let unit = (exponent + highest - 23).max(-149);
    let dropped = unit - exponent;
    let kept = if dropped <= 0 {
        significand << -dropped
    } else {
        shifted_to_nearest(significand, dropped as u32)
    };
    // 2^24 carries into the exponent's field; what passes the largest value is infinite.
    let magnitude = (((unit + 149) as u64) << 23) + kept;
    f32::from_bits(sign | magnitude.min(0x7f80_0000) as u32)
}

/// `significand` over 2^`places`, to the nearest whole number, ties to even.
fn shifted_to_nearest(significand: u64, places: u32) -> u64 {
    if places > 63 {
        return 0;
    }
    let whole = significand >> places;
    let rest = significand - (whole << places);
    let half = 1u64 << (places - 1);
    if rest > half || (rest == half && whole % 2 == 1) {
        whole + 1
    } else {
        whole
    }
}

/// e to the `x`, for `x` at most 0, in f64, narrowed: 0 below -104, else eight terms of the
/// series at x / 1024, squared ten times.
pub fn exp(x: f32) -> f32 {
    let x = f64::from(x);
    if x < -104.0 {
        return 0.0;
    }
    let t = x / 1024.0;
    let mut power = 1.0f64;
    for n in (1..=8).rev() {
        power = 1.0 + (t / f64::from(n)) * power;
    }
    for _ in 0..10 {
        power *= power;
    }
    narrow(power)
}

/// The logarithm of a positive finite value, in f64, narrowed once: k times that of 2, and eight
/// terms of the series for m, where the value is m · 2^k and m from 0.75 to below 1.5.
/// Minus infinity of both zeros, infinity of infinity, NaN of a NaN and of a value below 0.
pub fn log(value: f32) -> f32 {
    if value == 0.0 {
        return f32::NEG_INFINITY;
    }
    if value.is_nan() || value < 0.0 {
        return f32::NAN;
    }
    if value == f32::INFINITY {
        return value;
    }
    let (significand, exponent) = parts(value);
    // The highest set bit to place 23: m from 1 to below 2, and from 1.5 on its half.
    let shift = significand.leading_zeros() as i32 - 8;
    let significand = significand << shift;
    let places = if significand < 0x00c0_0000 { 23 } else { 24 };
    let m = f64::from(significand) / f64::from(1 << places);
    let k = f64::from(exponent - shift + places);
    let z = (m - 1.0) / (m + 1.0);
    let q = z * z;
    let mut sum = 1.0 / 15.0;
    for n in [13.0, 11.0, 9.0, 7.0, 5.0, 3.0, 1.0] {
        sum = 1.0 / n + q * sum;
    }
    narrow(k * LOG_OF_2 + (2.0 * z) * sum)
}

/// max(v, 0) in f32: `value` if it is above 0, else +0, a NaN too.
pub fn max_zero(value: f32) -> f32 {
    if value > 0.0 { value } else { 0.0 }
}

/// max(v, 0) in f64: `value` if it is above 0, else +0, a NaN too.
pub fn max_zero_f64(value: f64) -> f64 {
    if value > 0.0 { value } else { 0.0 }
}

/// The smaller of two values; a NaN is ignored. Of zeros of both signs, which 01 leaves open,
/// the first.
pub fn min(a: f32, b: f32) -> f32 {
    if b < a || a.is_nan() { b } else { a }
}

/// Neither infinite nor a NaN, from the exponent's field.
pub fn is_finite(value: f32) -> bool {
    value.to_bits() & 0x7f80_0000 != 0x7f80_0000
}

#[cfg(test)]
mod tests;
