//! 02's first request: "Lag and push in plain units".

use crate::{bits, number};

/// 1, lag and acceleration of a done report that has them, else three zeros; 9 for wrong sizes.
pub fn plain_units(report: &[u8], output: &mut [u8]) -> u32 {
    if report.len() != 36 || output.len() != 12 {
        return 9;
    }
    output.fill(0);
    let done = report[0] & 0xc0 == 0x40;
    let pole = -number(report, 4);
    if !done || pole.is_nan() || pole >= 1.0 {
        return 0;
    }
    let effect = number(report, 5) + number(report, 6) + number(report, 7);
    let dt_s = number(report, 8);
    let (lag, positive_pole) = if pole <= 0.0 {
        (0.0, 0.0)
    } else {
        (-dt_s / log(pole), pole)
    };
    let acceleration = effect / ((1.0 - positive_pole) * dt_s);
    output[3] = 1;
    output[4..8].copy_from_slice(&bits(lag).to_be_bytes());
    output[8..].copy_from_slice(&bits(acceleration).to_be_bytes());
    0
}

/// The logarithm of a positive finite value.
#[allow(clippy::approx_constant, reason = "02's own digits")]
fn log(value: f32) -> f32 {
    let (mut m, mut k) = (f64::from(value), 0.0);
    while m < 0.75 {
        m *= 2.0;
        k -= 1.0;
    }
    while m >= 1.5 {
        m /= 2.0;
        k += 1.0;
    }
    let z = (m - 1.0) / (m + 1.0);
    let q = z * z;
    let sum = (1..=13)
        .rev()
        .step_by(2)
        .fold(1.0 / 15.0, |last, n| 1.0 / f64::from(n) + q * last);
    (k * 0.6931471805599453 + 2.0 * z * sum) as f32
}

#[cfg(test)]
mod tests {
    use super::{log, plain_units};

    #[test]
    fn marked_logarithms() {
        for (value, logarithm) in [
            (0x3f40_0000, 0xbe93_4b11),
            (0x3f7f_ffff, 0xb380_0000),
            (0x0000_0001, 0xc2ce_8ed0),
            (0x3fc0_0000, 0x3ecf_991f),
        ] {
            assert_eq!(log(f32::from_bits(value)).to_bits(), logarithm);
        }
    }

    #[test]
    fn a_lag_of_30_ms() {
        let mut report = [0; 36];
        report[0] = 0x40;
        report[16..20].copy_from_slice(&0xbf60_0b5cu32.to_be_bytes());
        report[32..].copy_from_slice(&0x3b83_126fu32.to_be_bytes());
        let mut output = [0xa5; 12];
        assert_eq!(plain_units(&report, &mut output), 0);
        assert_eq!(output, [0, 0, 0, 1, 0x3c, 0xf5, 0xc2, 0x91, 0, 0, 0, 0]);
    }
}
