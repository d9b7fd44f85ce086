//! The families of lists for a flight of two axes.

mod classes;
mod others;

use reference::two_axis::written_len;

use crate::random::Random;
use crate::{Config, Family, List, bytes_more};

/// One call of two axes: dt, then rate and moment of each.
pub type TwoAxisCall = [f32; 5];

/// The bytes of some calls.
pub fn two_axis_bytes(calls: &[TwoAxisCall]) -> Vec<u8> {
    let values = calls.iter().flatten();
    values
        .flat_map(|value| value.to_bits().to_be_bytes())
        .collect()
}

pub const TWO_AXIS_FAMILIES: [Family; 11] = [
    Family {
        name: "two classes, no extension",
        weight: 16,
        make: classes::no_extension,
    },
    Family {
        name: "two classes, extended",
        weight: 24,
        make: classes::extended,
    },
    Family {
        name: "extended by one tick",
        weight: 16,
        make: classes::one_tick,
    },
    Family {
        name: "extension already reached",
        weight: 16,
        make: classes::reached,
    },
    Family {
        name: "extension passed by a long dt",
        weight: 16,
        make: classes::passed,
    },
    Family {
        name: "held beside good",
        weight: 12,
        make: others::held_beside_good,
    },
    Family {
        name: "two lists",
        weight: 48,
        make: others::two_lists,
    },
    Family {
        name: "one list twice",
        weight: 8,
        make: others::one_list_twice,
    },
    Family {
        name: "full windows",
        weight: 1,
        make: others::full_windows,
    },
    Family {
        name: "bad configuration",
        weight: 8,
        make: others::bad_config,
    },
    Family {
        name: "bad buffer sizes",
        weight: 8,
        make: others::bad_buffers,
    },
];

/// A list with room for its output and now and then some bytes more, with calls that 6 and 7 turn
/// back and calls after the end sprinkled in.
fn sprinkled(
    random: &mut Random,
    family: &'static str,
    config: &Config,
    mut calls: Vec<TwoAxisCall>,
) -> List {
    if random.once_in(3) {
        for _ in 0..random.between(1, 4) {
            let late = calls.last().copied().unwrap_or([0.25; 5]);
            calls.push(late);
        }
    }
    if random.once_in(3) {
        for _ in 0..random.between(1, 5) {
            let dt = random.pick(&[0.0, -0.0, -0.25, f32::NAN, f32::INFINITY, 5_000.0, 4_097.0]);
            let place = random.below(calls.len() + 1);
            let [rate, moment] = [(); 2].map(|()| f32::from_bits(random.word()));
            calls.insert(place, [dt, rate, 1.0, 0.5, moment]);
        }
    }
    List {
        family,
        config: config.bytes(),
        calls: two_axis_bytes(&calls),
        output_len: written_len(calls.len()) + bytes_more(random),
    }
}
