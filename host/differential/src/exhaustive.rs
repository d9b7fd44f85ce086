//! Every list of up to five calls over a small alphabet, for a few configurations.

use lists::{Call, Config, call_bytes};

use crate::axes::Axes;
use crate::compare::Input;

const LONGEST: u32 = 5;

/// Good, zero, NaN, infinite and huge readings; good, long, tiny and refused ticks.
const ALPHABET: [Call; 10] = [
    Call {
        dt: 0.25,
        rate: 0.5,
        moment: -0.5,
    },
    Call {
        dt: 0.25,
        rate: 0.0,
        moment: 0.0,
    },
    Call {
        dt: 0.25,
        rate: f32::NAN,
        moment: 1.0,
    },
    Call {
        dt: 0.25,
        rate: 1.0,
        moment: f32::INFINITY,
    },
    Call {
        dt: 0.25,
        rate: f32::MAX,
        moment: f32::MIN,
    },
    Call {
        dt: 1.75,
        rate: f32::NEG_INFINITY,
        moment: f32::NAN,
    },
    Call {
        dt: 1e-30,
        rate: -0.0,
        moment: 0.999,
    },
    Call {
        dt: 1000.0,
        rate: 2.0,
        moment: 1.0,
    },
    Call {
        dt: 0.0,
        rate: 1.0,
        moment: 1.0,
    },
    Call {
        dt: 4096.0,
        rate: 1.0,
        moment: 1.0,
    },
];

const CONFIGS: [Config; 5] = [
    config(1.0, 1.0, 0.5),
    config(-2.0, 0.75, 10.0),
    config(f32::MAX, 3600.0, 1e-3),
    Config {
        flag: 0x8000_0000,
        extension_amplitude: 3.0,
        extension_duration_s: 2.0,
        ..config(1.0, 0.5, 0.2)
    },
    config(0.0, 1.0, 0.5),
];

const fn config(amplitude: f32, duration_s: f32, washout_tc_s: f32) -> Config {
    Config {
        amplitude,
        duration_s,
        washout_tc_s,
        flag: 0,
        extension_amplitude: 0.0,
        extension_duration_s: 0.0,
    }
}

/// All these inputs.
pub fn inputs() -> impl Iterator<Item = Input> {
    let size = ALPHABET.len();
    CONFIGS.iter().flat_map(move |config| {
        (0..=LONGEST).flat_map(move |length| {
            (0..size.pow(length)).map(move |number| {
                let letter = |place| ALPHABET[number / size.pow(place) % size];
                let calls: Vec<Call> = (0..length).map(letter).collect();
                Input {
                    axes: Axes::One,
                    config: config.bytes(),
                    calls: call_bytes(&calls),
                    output_len: 36 + 4 * calls.len(),
                    memory: number as u64,
                }
            })
        })
    })
}

/// One list with as many ticks as a probe takes, and then calls that 8, 7 and 6 turn back.
pub fn last_tick(axes: Axes) -> Input {
    let ticks = std::iter::repeat_n(1e-30, 16_777_217);
    let call = |dt: f32| {
        let readings = std::iter::repeat_n(0.0, 2 * axes.count());
        std::iter::once(dt).chain(readings)
    };
    let calls: Vec<u8> = ticks
        .chain([5000.0, 0.0])
        .flat_map(call)
        .flat_map(f32::to_be_bytes)
        .collect();
    Input {
        axes,
        config: CONFIGS[0].bytes(),
        output_len: axes.written_len(calls.len() / axes.call_len()),
        calls,
        memory: 0,
    }
}
