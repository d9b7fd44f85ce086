//! Document 02's lag and acceleration over the reference: values worked out by hand, and what
//! has neither.

use reference::plain_units::plain_units;

/// A report of a kind, its head otherwise all ones, with these floats' bits.
fn report(kind: u8, floats: [u32; 6]) -> Vec<u8> {
    let mut bytes = vec![0xff; 12];
    bytes[0] = kind << 6 | 0x3f;
    bytes.extend(floats.iter().flat_map(|word| word.to_be_bytes()));
    bytes
}

fn words(report: &[u8]) -> [u32; 3] {
    let mut output = [0xa5; 12];
    assert_eq!(plain_units(report, &mut output), 0);
    let word = |place: usize| output[4 * place..4 * place + 4].try_into();
    [0, 1, 2].map(|place| u32::from_be_bytes(word(place).expect("four bytes")))
}

/// The answer for a done model of a pole, moment weights and dt_s.
fn units(pole: u32, moments: [u32; 3], dt_s: u32) -> [u32; 3] {
    let [m0, m1, m2] = moments;
    words(&report(
        1,
        [0x7fc0_0000, pole ^ 0x8000_0000, m0, m1, m2, dt_s],
    ))
}

const ZERO: u32 = 0;
const MINUS_ZERO: u32 = 0x8000_0000;
const ONE: u32 = 0x3f80_0000;
const TWO: u32 = 0x4000_0000;
const HALF: u32 = 0x3f00_0000;
const INFINITY: u32 = 0x7f80_0000;
const NAN: u32 = 0x7fc0_0000;
const NEITHER: [u32; 3] = [0; 3];

#[test]
fn a_lag_of_thirty_milliseconds() {
    let [both, lag_s, _] = units(0x3f60_0b5c, [ONE, ZERO, ZERO], 0x3b83_126f);
    assert_eq!((both, lag_s), (1, 0x3cf5_c291));
}

#[test]
fn a_pole_of_a_half() {
    // 1 / log 2 = 1.442695; 1 / ((1 - 0.5) · 1) = 2.
    assert_eq!(units(HALF, [ONE, ZERO, ZERO], ONE), [1, 0x3fb8_aa3b, TWO]);
}

#[test]
fn a_pole_of_zero_or_below_has_lag_0_and_counts_as_0() {
    for pole in [ZERO, MINUS_ZERO, 0x8000_0001, 0xbf80_0000, 0xff80_0000] {
        assert_eq!(units(pole, [ONE, ONE, ZERO], ONE), [1, 0, TWO]);
    }
}

#[test]
fn a_pole_of_1_or_more_has_neither() {
    for pole in [ONE, ONE + 1, INFINITY, NAN, 0xffc0_0001, 0x7f80_0001] {
        assert_eq!(units(pole, [ONE, ONE, ZERO], ONE), NEITHER);
    }
    assert_eq!(units(ONE - 1, [ONE, ONE, ZERO], ONE)[0], 1);
}

#[test]
fn the_weights_are_added_left_to_right_with_no_zero_before_them() {
    assert_eq!(
        units(ZERO, [MINUS_ZERO; 3], ONE),
        [1, 0, MINUS_ZERO],
        "three of -0"
    );
    assert_eq!(units(ZERO, [MINUS_ZERO, ZERO, MINUS_ZERO], ONE), [1, 0, 0]);
    // 2^25 + 1 is 2^25: 1 at the end stays, 1 in the middle is lost.
    let (large, opposite) = (0x4c00_0000, 0xcc00_0000);
    assert_eq!(units(ZERO, [large, opposite, ONE], ONE), [1, 0, ONE]);
    assert_eq!(units(ZERO, [large, ONE, opposite], ONE), [1, 0, 0]);
    assert_eq!(units(ZERO, [INFINITY, 0xff80_0000, ONE], ONE), [1, 0, NAN]);
}

#[test]
fn the_divisor_is_the_product() {
    // (1 - pole) · dt_s is 2^-24 · 2^-149, which is 0; the lag is 2^-149 / 2^-24.
    assert_eq!(
        units(ONE - 1, [ONE, ZERO, ZERO], 1),
        [1, 0x0100_0000, INFINITY]
    );
    let [_, _, accel] = units(ONE - 1, [ZERO; 3], 1);
    assert_eq!(accel, NAN);
}

#[test]
fn an_odd_tick_turns_nothing_back() {
    for (dt_s, lag_s, accel) in [
        (ZERO, ZERO, INFINITY),
        (MINUS_ZERO, MINUS_ZERO, 0xff80_0000),
        (INFINITY, INFINITY, ZERO),
        (NAN, NAN, NAN),
        (0xffff_ffff, NAN, NAN),
    ] {
        assert_eq!(
            units(HALF, [ONE, ZERO, ZERO], dt_s),
            [1, lag_s, accel],
            "dt_s {dt_s:08x}"
        );
    }
}

#[test]
fn only_a_done_report_has_them() {
    for kind in [0, 2, 3] {
        assert_eq!(
            words(&report(kind, [ONE, 0xbf00_0000, ONE, ZERO, ZERO, ONE])),
            NEITHER
        );
    }
}

#[test]
fn other_sizes_are_turned_back_and_nothing_is_written() {
    let report = report(1, [ONE; 6]);
    for report_len in [0, 35, 36, 37] {
        for output_len in [0, 11, 12, 13] {
            if (report_len, output_len) == (36, 12) {
                continue;
            }
            let mut longer = report.clone();
            longer.resize(report_len, 0);
            let mut output = vec![0xa5; output_len];
            assert_eq!(plain_units(&longer, &mut output), 9);
            assert!(output.iter().all(|byte| *byte == 0xa5));
        }
    }
}
