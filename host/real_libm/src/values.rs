//! The stand-ins against the real functions, value by value.

use std::ops::RangeInclusive;

use crate::distance::Distances;

/// Two functions over the floats of these bits.
fn compared(
    bits: RangeInclusive<u32>,
    standin: impl Fn(f32) -> f32,
    real: impl Fn(f32) -> f32,
) -> Distances {
    let mut distances = Distances::default();
    for bits in bits {
        let value = f32::from_bits(bits);
        distances.add(bits, standin(value), real(value));
    }
    distances
}

/// Between 0 and 1.
pub fn log() -> Distances {
    compared(1..=0x3f7f_ffff, float::log, real::logf)
}

/// From -104 to 0.
pub fn exp() -> Distances {
    compared(0x8000_0000..=0xc2d0_0000, float::exp, real::expf)
}

/// From 0 to infinity.
pub fn root() -> Distances {
    compared(0..=0x7f80_0000, float::root, real::sqrtf)
}

#[cfg(test)]
mod tests {
    use super::compared;

    #[test]
    fn a_stretch_of_each() {
        let log = compared(0x3f00_0000..=0x3f0f_ffff, float::log, real::logf);
        assert!(log.most <= 1 && log.values == 0x10_0000);
        let exp = compared(0xbf80_0000..=0xbf8f_ffff, float::exp, real::expf);
        assert!(exp.most <= 1);
        let root = compared(0x3f80_0000..=0x3f8f_ffff, float::root, real::sqrtf);
        assert_eq!(root.differ, 0);
    }

    #[test]
    fn a_difference_is_counted() {
        let off = |value: f32| float::root(value).next_up();
        let root = compared(0x3f80_0000..=0x3f80_00ff, off, real::sqrtf);
        assert_eq!((root.values, root.differ, root.most), (256, 256, 1));
    }
}
