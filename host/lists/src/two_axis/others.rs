//! A held axis beside a good one, two lists of the single families, full windows, and what is turned back.

use reference::byte_run::calls_of;
use reference::two_axis::written_len;

use super::classes::{Wanted, readings};
use super::{TwoAxisCall, sprinkled, two_axis_bytes};
use crate::families::made::{config_for, extend, tick_s};
use crate::random::Random;
use crate::{Call, Config, FAMILIES, List, call_bytes, list_in, of_family};

/// One axis has bad readings alone, or all but a few; the other is good.
pub fn held_beside_good(random: &mut Random, family: &'static str) -> List {
    let (ticks, dt) = (random.between(20, 90), tick_s(random));
    let more = random.between(1, 20);
    let mut config = config_for(random, ticks, dt);
    if !random.once_in(4) {
        extend(random, &mut config, ticks + more, dt);
    }
    let wanted = random.pick(&[Wanted::Recorded, Wanted::Integrated]);
    let good = readings(random, wanted, ticks + more);
    let good_in = random.pick(&[usize::MAX, usize::MAX, 13, 2]);
    let second_held = random.once_in(2);
    let calls = good
        .into_iter()
        .enumerate()
        .map(|(tick, [rate, moment])| {
            let bad = random.pick(&[f32::NAN, f32::INFINITY, f32::NEG_INFINITY]);
            let held = match tick % good_in {
                _ if good_in == usize::MAX => [bad, random.unit() as f32],
                0 => [bad, bad],
                _ => [random.unit() as f32, random.unit() as f32],
            };
            if second_held {
                [dt, rate, moment, held[0], held[1]]
            } else {
                [dt, held[0], held[1], rate, moment]
            }
        })
        .collect();
    sprinkled(random, family, &config, calls)
}

/// The configuration and the calls of a list whose sizes fit.
fn single(random: &mut Random) -> (Config, Vec<Call>) {
    loop {
        let number = random.bits() >> 8;
        let list = list_in(&FAMILIES, random.bits(), number);
        if list.config.len() == 24
            && list.calls.len().is_multiple_of(12)
            && list.calls.len() <= 12 * 400
        {
            return (Config::of(&list.config), calls_of(&list.calls).collect());
        }
    }
}

/// The readings of two lists of the single families, at the dt of the first.
pub fn two_lists(random: &mut Random, family: &'static str) -> List {
    let ((mut config, first), (_, mut second)) = (single(random), single(random));
    if random.once_in(2) {
        // The second goes on for as long as the first, over and over.
        second = second.into_iter().cycle().take(first.len()).collect();
    }
    let calls = zipped(&first, &second);
    if random.once_in(2) {
        end_within(random, &mut config, &calls);
    }
    sprinkled(random, family, &config, calls)
}

/// Makes the configuration one whose end time, and mostly an extension's too, is that of some call.
fn end_within(random: &mut Random, config: &mut Config, calls: &[TwoAxisCall]) {
    let elapsed_s =
        |calls: &[TwoAxisCall]| calls.iter().fold(0.0, |elapsed, call| elapsed + call[0]);
    let end = random.between(calls.len() / 2, calls.len());
    config.duration_s = elapsed_s(&calls[..end]);
    if !random.once_in(4) {
        config.flag = 1;
        config.extension_amplitude = -config.amplitude;
        config.extension_duration_s = elapsed_s(&calls[..random.between(end, calls.len())]);
    }
}

/// Both axes have the readings of one list, the second's of some ticks before or other signs.
pub fn one_list_twice(random: &mut Random, family: &'static str) -> List {
    let (config, first) = single(random);
    let mut second = first.clone();
    match random.below(3) {
        0 => {}
        1 => second.rotate_right(random.below(3).min(first.len())),
        _ => second.iter_mut().for_each(|call| call.rate = -call.rate),
    }
    let calls = zipped(&first, &second);
    sprinkled(random, family, &config, calls)
}

/// The calls of two axes at the dt of the first.
fn zipped(first: &[Call], second: &[Call]) -> Vec<TwoAxisCall> {
    let both = first.iter().zip(second);
    both.map(|(one, other)| [one.dt, one.rate, one.moment, other.rate, other.moment])
        .collect()
}

/// More than 2,048 ticks, of which the windows store as many.
pub fn full_windows(random: &mut Random, family: &'static str) -> List {
    let full = FAMILIES
        .iter()
        .find(|family| family.name == "more than 2,048 ticks");
    let full = full.expect("the family");
    let [first, second] = [(); 2].map(|()| of_family(full, random.bits(), 0));
    let [one, other]: [Vec<Call>; 2] =
        [&first, &second].map(|list| calls_of(&list.calls).collect());
    let mut config = Config::of(&first.config);
    let calls = zipped(&one, &other);
    let ticks = calls.len();
    if random.once_in(2) {
        let (end, extended) = (ticks - random.between(3, 60), ticks - random.below(3));
        config = config_for(random, end, one[0].dt);
        extend(random, &mut config, extended, one[0].dt);
    }
    sprinkled(random, family, &config, calls)
}

pub fn bad_config(random: &mut Random, family: &'static str) -> List {
    let bad = FAMILIES
        .iter()
        .find(|family| family.name == "bad configuration");
    let list = of_family(bad.expect("the family"), random.bits(), 0);
    let calls = vec![[0.1, 0.0, 0.0, 0.5, -0.5]; random.below(4)];
    sprinkled(random, family, &Config::of(&list.config), calls)
}

/// Configurations of 0 to 36 bytes, calls that are no multiple of 20, outputs around their least length.
pub fn bad_buffers(random: &mut Random, family: &'static str) -> List {
    let mut config = config_for(random, 4, 0.1);
    if random.once_in(4) {
        config.amplitude = 0.0;
    }
    let calls = vec![[0.1, 1.0, 0.5, -1.0, -0.5]; random.below(6)];
    let mut list = List {
        family,
        config: config.bytes(),
        calls: two_axis_bytes(&calls),
        output_len: written_len(calls.len()),
    };
    match random.below(6) {
        0 => list.config.truncate(random.below(24)),
        1 => list.config.resize(24 + random.between(1, 12), 0x3f),
        2 => list
            .calls
            .resize(list.calls.len() + random.between(1, 19), 0x3d),
        // The sizes of a single probe's run.
        3 => {
            list.calls = call_bytes(
                &[Call {
                    dt: 0.1,
                    rate: 1.0,
                    moment: 0.5,
                }; 5],
            );
            list.output_len = 36 + 4 * 5;
        }
        4 => list.output_len -= random.between(1, 77),
        _ => list.output_len = (list.output_len + random.below(3)).saturating_sub(1),
    }
    list
}
