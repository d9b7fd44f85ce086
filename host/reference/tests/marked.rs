//! The marked examples of document 01, and its refusals, over the reference.

use reference::access::{self, IdentifyConfig, IdentifyExtension};
use reference::account::Account;
use reference::byte_run::{Call, byte_run};
use reference::checked::checked_run;
use reference::probe::{Probe, refused_config};

fn words(values: &[u32]) -> Vec<u8> {
    values
        .iter()
        .flat_map(|value| value.to_be_bytes())
        .collect()
}

fn floats(values: &[f32]) -> Vec<u8> {
    values
        .iter()
        .flat_map(|value| value.to_bits().to_be_bytes())
        .collect()
}

const PLAIN: IdentifyConfig = IdentifyConfig {
    amplitude: 1.0,
    duration_s: 1.0,
    washout_tc_s: 0.5,
    noisy: None,
};

fn with_extension(amplitude: f32, duration_s: f32) -> IdentifyConfig {
    IdentifyConfig {
        noisy: Some(IdentifyExtension {
            amplitude,
            duration_s,
        }),
        ..PLAIN
    }
}

#[test]
fn m1_byte_for_byte() {
    let config = floats(&[1.0, 1.0, 0.5, 0.0, 0.0, 0.0]);
    let calls = floats(&[0.25, 0.0, 0.0].repeat(4));
    let mut output = [0xa5; 36 + 16 + 3];
    assert_eq!(byte_run(&config, &calls, &mut output), 0);
    let mut expected = words(&[0x8000_0002, 0x0020_0000, 0x2000_0000, 0, 0, 0, 0, 0, 0]);
    expected.extend(words(&[0x3f00_0000, 0x3e80_0000, 0x3e00_0000, 0xbee0_0000]));
    expected.extend([0xa5; 3]);
    assert_eq!(output[..], expected);
}

#[test]
fn m2_m3_half_periods() {
    assert_eq!(access::half_period_s(0), 1.0);
    assert_eq!(
        access::half_period_s(14).to_bits(),
        access::half_period_s(9).to_bits()
    );
}

#[test]
fn m4_to_m9_tie_rule() {
    let tie = |entries: &[(f32, f32)], share| {
        let entries: Vec<_> = entries.iter().copied().map(Some).collect();
        access::delay_to_fit(&entries, share)
    };
    assert_eq!(tie(&[], 0.0), None, "M4");
    assert_eq!(tie(&[(1.0, 1.25), (1.0, 1.0)], 0.0), Some(2), "M5");
    assert_eq!(tie(&[(1.0, 1.007_812_5), (1.0, 1.0)], 0.01), Some(1), "M6");
    assert_eq!(tie(&[(-1.0, 0.5), (1.0, 2.0)], 0.0), Some(2), "M7");
    assert_eq!(tie(&[(1.0, f32::INFINITY)], 0.0), None, "M8");
    let mut late = vec![None; 20];
    late.push(Some((1.0, 1.0)));
    assert_eq!(access::delay_to_fit(&late, 0.01), None, "M9");
}

/// Held, warm and rows of a window of good (true) and bad readings, by the Rust's window and
/// sums and by the account.
fn counts(good: &[bool]) -> [u32; 3] {
    let mut config = PLAIN;
    config.duration_s = 0.25 * good.len() as f32;
    let mut probe = Probe::new(config).expect("a good configuration");
    let calls: Vec<Call> = good
        .iter()
        .map(|good| Call {
            dt: 0.25,
            rate: if *good { 0.0 } else { f32::NAN },
            moment: 0.0,
        })
        .collect();
    for call in &calls {
        probe
            .step(call.dt, call.rate, call.moment)
            .expect("a good call");
    }
    let report = probe.report();
    assert_eq!(report.kind, 2, "ended");
    let account = Account::of(&config, calls.into_iter());
    assert_eq!(account.warm_and_rows(), (report.warm, report.rows));
    assert_eq!(account.held(), report.held);
    [report.held, report.warm, report.rows]
}

#[test]
fn m10_to_m12_rows() {
    assert_eq!(counts(&[true; 11]), [0, 11, 0], "M10");
    assert_eq!(counts(&[true; 12]), [0, 11, 1], "M11");
    let mut window = vec![true; 26];
    window[12] = false;
    assert_eq!(counts(&window), [1, 22, 3], "M12");
}

#[test]
fn configurations_turned_back_in_order() {
    assert_eq!(refused_config(&PLAIN), None);
    let bad = [f32::NAN, f32::INFINITY, f32::NEG_INFINITY, 0.0, -0.0];
    for value in bad {
        assert_eq!(
            refused_config(&IdentifyConfig {
                amplitude: value,
                ..PLAIN
            }),
            Some(1)
        );
        assert_eq!(
            refused_config(&IdentifyConfig {
                duration_s: value,
                ..PLAIN
            }),
            Some(2)
        );
        assert_eq!(
            refused_config(&IdentifyConfig {
                washout_tc_s: value,
                ..PLAIN
            }),
            Some(3)
        );
        assert_eq!(refused_config(&with_extension(value, 2.0)), Some(4));
        assert_eq!(refused_config(&with_extension(1.0, value)), Some(5));
    }
    assert_eq!(
        refused_config(&IdentifyConfig {
            duration_s: 3600.0,
            ..PLAIN
        }),
        None
    );
    let above = 3600.0f32.next_up();
    assert_eq!(
        refused_config(&IdentifyConfig {
            duration_s: above,
            ..PLAIN
        }),
        Some(2)
    );
    assert_eq!(refused_config(&with_extension(1.0, 1.0)), None);
    assert_eq!(
        refused_config(&with_extension(1.0, 1.0f32.next_down())),
        Some(5)
    );
    assert_eq!(refused_config(&with_extension(1.0, 3600.0)), None);
    assert_eq!(refused_config(&with_extension(1.0, above)), Some(5));
    let all = IdentifyConfig {
        amplitude: 0.0,
        duration_s: 0.0,
        washout_tc_s: 0.0,
        noisy: Some(IdentifyExtension {
            amplitude: 0.0,
            duration_s: -1.0,
        }),
    };
    assert_eq!(refused_config(&all), Some(1));
}

#[test]
fn calls_turned_back() {
    let mut probe = Probe::new(IdentifyConfig {
        duration_s: 3600.0,
        ..PLAIN
    })
    .expect("good");
    for dt in [0.0, -0.0, -1.0, f32::NAN, f32::INFINITY] {
        assert_eq!(probe.step(dt, 0.0, 0.0), Err(6));
    }
    assert_eq!(probe.step(5000.0, 0.0, 0.0), Err(7));
    assert_eq!(probe.step(4096.0f32.next_up(), 0.0, 0.0), Err(7));
    assert_eq!(probe.ticks(), 0);
    // 0.0001 more than 4,096 rounds to 4,096.
    probe.step(0.0001, 0.0, 0.0).expect("a good call");
    probe.step(4096.0, 0.0, 0.0).expect("accepted");
    assert_eq!(probe.report().kind, 2);
    assert_eq!(probe.step(5000.0, 0.0, 0.0), Ok(0.0));
    assert_eq!(probe.step(0.0, 0.0, 0.0), Err(6));
    assert_eq!(probe.ticks(), 2);
}

#[test]
fn the_last_tick() {
    let mut probe = Probe::new(PLAIN).expect("good");
    for _ in 0..16_777_216 {
        probe.step(1e-30, 0.0, 0.0).expect("a good call");
    }
    assert_eq!(probe.step(1e-30, 0.0, 0.0), Err(8));
    assert_eq!(probe.step(5000.0, 0.0, 0.0), Err(7));
    assert_eq!(probe.step(0.0, 0.0, 0.0), Err(6));
    let report = probe.report();
    assert_eq!((report.ticks, report.stored), (16_777_216, 2048));
    assert_eq!(report.bytes()[..4], [0x00, 0x80, 0x00, 0x00]);
}

#[test]
fn sizes_are_tested_first() {
    let config = floats(&[0.0, 1.0, 0.5, 0.0, 0.0, 0.0]);
    let run = |config: &[u8], calls: usize, output: usize| {
        let mut output = vec![0x5a; output];
        checked_run(config, &vec![0; calls], &mut output).result
    };
    assert_eq!(run(&config, 0, 36), 1);
    assert_eq!(run(&config, 0, 35), 9);
    assert_eq!(run(&config[..23], 0, 36), 9);
    assert_eq!(run(&config, 11, 100), 9);
    assert_eq!(run(&config, 12, 39), 9);
    assert_eq!(run(&config, 12, 40), 1);
}

#[test]
fn no_calls_is_a_run() {
    let config = floats(&[1.0, 1.0, 0.5, 0.0, 0.0, 0.0]);
    let mut output = [0xa5; 40];
    assert_eq!(byte_run(&config, &[], &mut output), 0);
    assert_eq!(output[..36], [0; 36]);
    assert_eq!(output[36..], [0xa5; 4]);
}

#[test]
fn the_lags_are_128() {
    // A tick of 1 lag gives e^-1 at that lag: the grid is seen through its poles.
    let poles = access::lag_poles(0.001);
    assert_eq!(poles.len(), 129);
    assert_eq!(poles[0].to_bits(), 0);
    assert_eq!(poles[1].to_bits(), float::exp(-1.0).to_bits());
    let (mut lag, mut last) = (0.001f32, 0.0);
    for pole in &poles[1..] {
        assert_eq!(pole.to_bits(), float::exp(-0.001 / lag).to_bits());
        last = lag;
        lag *= 1.05;
    }
    assert!(lag > 0.5);
    assert_eq!(last.to_bits(), 0x3efb_5df8);
}
