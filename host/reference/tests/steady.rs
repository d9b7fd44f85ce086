//! The marked values of 02's request six over the reference.

use reference::byte_run::{CONFIG_LEN, word_at};
use reference::steady::{steady_run, steady_two_axis_run};
use reference::two_axis;

/// A configuration of 1 s, or of another duration.
fn config(duration_s: f32) -> [u8; CONFIG_LEN] {
    let values = [1.0, duration_s, 0.5, 0.0, 0.0, 0.0];
    let bytes = values.map(|value: f32| value.to_bits().to_be_bytes());
    bytes.concat().try_into().expect("24 bytes")
}

/// What turns each call back, 0 where nothing does; the same for one axis and for two.
fn numbers(duration_s: f32, dts: &[f32]) -> Vec<u32> {
    let numbers = |words: &[u8], each| {
        let number = |word: &[u8]| word_at(word, 0).wrapping_sub(float::NAN_BITS);
        let words = words.chunks_exact(each).map(number);
        words.map(|n| if n <= 10 { n } else { 0 }).collect()
    };
    let (mut one, mut two) = (Vec::new(), Vec::new());
    for dt in dts {
        one.extend([*dt, 0.0, 0.0].map(|value| value.to_bits().to_be_bytes()));
        two.extend([*dt, 0.0, 0.0, 0.0, 0.0].map(|value| value.to_bits().to_be_bytes()));
    }
    let (one, two) = (one.concat(), two.concat());
    let config = config(duration_s);
    let mut output = vec![0; 36 + 4 * dts.len()];
    steady_run(&config, &one, &mut output).expect("a good configuration");
    let of_one: Vec<u32> = numbers(&output[36..], 4);
    let mut output = vec![0; two_axis::written_len(dts.len())];
    steady_two_axis_run(&config, &two, &mut output).expect("a good configuration");
    let of_two: Vec<u32> = numbers(&output[two_axis::REPORT_LEN..], 8);
    assert_eq!(of_one, of_two);
    of_one
}

#[test]
fn the_ends_after_a_first_dt_of_4_ms() {
    let bits = [
        0x3b44_9ba5,
        0x3b44_9ba6,
        0x3b44_9ba7,
        0x3ba3_d70a,
        0x3ba3_d70b,
        0x3ba3_d70c,
    ];
    let mut dts = vec![0.004];
    dts.extend(bits.map(f32::from_bits));
    assert_eq!(numbers(1.0, &dts), [0, 10, 0, 0, 0, 0, 10]);
}

#[test]
fn six_precedes_ten_and_ten_precedes_seven() {
    let dts = [0.25, f32::NAN, 0.0, -0.25, f32::INFINITY, 5_000.0];
    assert_eq!(numbers(3_600.0, &dts), [0, 6, 6, 6, 6, 10]);
    assert_eq!(numbers(3_600.0, &[1_500.0, 1_500.0, 1_200.0]), [0, 0, 7]);
}

#[test]
fn a_call_that_is_turned_back_is_not_the_first() {
    assert_eq!(numbers(3_600.0, &[5_000.0, 1.0, 0.7, 1.25]), [7, 0, 10, 0]);
    assert_eq!(numbers(3_600.0, &[0.0, 1.0, 1.3, 0.75]), [6, 0, 10, 0]);
}

#[test]
fn after_the_end_six_alone_is_tested() {
    let dts = [0.5, 0.5, 9.0, 5_000.0, 0.0, f32::NAN];
    assert_eq!(numbers(1.0, &dts), [0, 0, 0, 0, 6, 6]);
}

#[test]
fn every_third_tick_is_dropped() {
    let numbers = numbers(60.0, &[0.25, 0.5].repeat(30));
    assert_eq!(numbers, [0, 10].repeat(30));
}
