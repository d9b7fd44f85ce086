//! A flight of two axes: each axis is a single probe flown to the end time of both, and faults are
//! found by the lists, by memory of any bytes, and by pairs at odds.

use library::{LivePair, LiveProbe};
use lists::{Config, TWO_AXIS_FAMILIES, call_bytes};
use reference::account::Taken;
use reference::byte_run::{Call, byte_run, config_of};
use reference::checked::{Ending, checked_two_axis_run};
use reference::probe::Probe;
use reference::two_axis::{calls_of, two_axis_run};
use second::LIVE_PAIR;

use super::differs;
use crate::axes::{Axes, Craft};
use crate::compare::{Input, compared};
use crate::live::Part;
use crate::memory;
use crate::odds;
use crate::shrink::shrunk;
use crate::subject::{SECOND, Subject};

/// The inputs of lists 0 to `count` of a seed.
fn inputs(seed: u64, count: u64) -> impl Iterator<Item = (&'static str, Input)> {
    (0..count).map(move |number| Input::numbered(Axes::Two, None, seed, number))
}

#[test]
fn the_second_program_agrees_with_the_reference() {
    for (number, (family, input)) in inputs(20, 3_000).enumerate() {
        assert!(!differs(SECOND, &input), "list {number}, {family}");
    }
}

#[test]
fn m1_as_a_pair() {
    let config = [1.0f32, 1.0, 0.5, 0.0, 0.0, 0.0]
        .map(f32::to_be_bytes)
        .concat();
    let calls = [0.25f32, 0.0, 0.0, 0.0, 0.0]
        .map(f32::to_be_bytes)
        .concat()
        .repeat(4);
    let report = [0x8000_0002u32, 0x0020_0000, 0x2000_0000, 0, 0, 0, 0, 0, 0];
    let report = report.map(u32::to_be_bytes).concat();
    let offsets = [[0.5f32, 0.0], [0.25, 0.0], [0.125, 0.0], [-0.4375, 0.5]];
    let mut expected = [&report[..], &report, &[0, 0, 2, 0, 0]].concat();
    expected.extend(
        offsets
            .iter()
            .flatten()
            .flat_map(|offset| offset.to_be_bytes()),
    );
    for run in [two_axis_run, second::two_axis_run] {
        let mut output = vec![0xa5; 77 + 32];
        assert_eq!(run(&config, &calls, &mut output), 0);
        assert_eq!(output, expected);
    }
}

/// The calls of one axis.
fn axis_calls(input: &Input, axis: usize) -> Vec<Call> {
    calls_of(&input.calls).map(|calls| calls[axis]).collect()
}

/// The report of one axis alone, with its offsets: high at first, or low.
fn alone(config: &Config, calls: &[Call], low: bool) -> (Vec<u8>, Vec<u32>) {
    let config = config_of(&config.bytes());
    let made = if low {
        Probe::starting_low(config)
    } else {
        Probe::new(config)
    };
    let mut probe = made.expect("a good configuration");
    let words = calls
        .iter()
        .map(|call| match probe.step(call.dt, call.rate, call.moment) {
            Ok(offset) => float::bits(offset),
            Err(number) => float::NAN_BITS + number,
        });
    let words = words.collect();
    (probe.report().bytes().to_vec(), words)
}

/// The report and the offsets of one axis in the output of a flight.
fn in_flight(output: &[u8], axis: usize, calls: usize) -> (Vec<u8>, Vec<u32>) {
    let word = |call: usize| {
        let first = 77 + 8 * call + 4 * axis;
        u32::from_be_bytes(output[first..first + 4].try_into().expect("four bytes"))
    };
    let report = output[36 * axis..36 * axis + 36].to_vec();
    (report, (0..calls).map(word).collect())
}

#[test]
fn each_axis_is_a_single_probe_flown_to_the_end_time_of_both() {
    let mut seen = [0; 3];
    for (_, input) in inputs(22, 4_000) {
        let mut output = vec![0; input.output_len];
        let answer = checked_two_axis_run(&input.config, &input.calls, &mut output);
        if answer.result != 0 {
            continue;
        }
        let config = Config::of(&input.config);
        for axis in 0..2 {
            let calls = axis_calls(&input, axis);
            let (report, words) = in_flight(&output, axis, calls.len());
            let as_it_is = || alone(&config, &calls, axis == 1);
            match answer.taken {
                // Its own window took the extension, or none did.
                None => seen[0] += 1,
                Some(Taken { wanted, asked, .. }) if [wanted, asked][axis] => seen[1] += 1,
                // The report of a probe that has the extension's end time from the start, whose
                // offsets are others from the extension on.
                Some(_) => {
                    seen[2] += 1;
                    assert_eq!(report, alone(&longer(&config), &calls, axis == 1).0);
                    continue;
                }
            }
            assert_eq!((report, words.clone()), as_it_is());
            if axis == 0 {
                let mut single = vec![0; 36 + 4 * calls.len()];
                assert_eq!(byte_run(&input.config, &call_bytes(&calls), &mut single), 0);
                let bits: Vec<u8> = words.iter().flat_map(|word| word.to_be_bytes()).collect();
                assert_eq!(single[36..], bits);
            }
        }
    }
    assert!(seen.iter().all(|count| *count >= 500), "{seen:?}");
}

#[test]
fn an_asked_axis_has_the_amplitude_of_the_extension_from_the_next_call_on() {
    let mut seen = 0;
    for (_, input) in inputs(23, 3_000) {
        let mut output = vec![0; input.output_len];
        let answer = checked_two_axis_run(&input.config, &input.calls, &mut output);
        // Its sweep and its washout are those of the axis that asks, where both start alike.
        let Some(taken) = answer
            .taken
            .filter(|taken| taken.wanted != taken.asked && taken.went_on)
        else {
            continue;
        };
        seen += 1;
        let asking = usize::from(taken.asked);
        let config = Config::of(&input.config);
        let (_, by_its_own) = alone(&config, &axis_calls(&input, asking), asking == 0);
        let (_, words) = in_flight(&output, 1 - asking, by_its_own.len());
        assert_eq!(words, by_its_own);
    }
    assert!(seen >= 100, "{seen}");
}

#[test]
fn every_pair_of_classes_is_seen_with_each_kind_of_extension() {
    for name in [
        "two classes, no extension",
        "two classes, extended",
        "extended by one tick",
        "extension already reached",
        "extension passed by a long dt",
    ] {
        let family = TWO_AXIS_FAMILIES.iter().find(|family| family.name == name);
        let mut kinds = [[0; 4]; 4];
        for number in 0..700 {
            let (_, mut input) = Input::numbered(Axes::Two, family, 24, number);
            // The classes at the end time are the endings where there is no extension.
            input.config[12..16].fill(0);
            let mut output = vec![0; input.output_len];
            let answer = checked_two_axis_run(&input.config, &input.calls, &mut output);
            if let [Some(first), Some(second)] =
                answer.axes.each_ref().map(|axis| kind(axis.ending))
            {
                kinds[first][second] += 1;
            }
        }
        assert!(
            kinds.iter().flatten().all(|count| *count >= 10),
            "{name}: {kinds:?}"
        );
    }
}

/// The class that an ending comes from.
fn kind(ending: Ending) -> Option<usize> {
    match ending {
        Ending::DoneRecorded => Some(0),
        Ending::UnexcitedNoSolve => Some(2),
        Ending::Saturated => Some(3),
        _ if ending.integrated() => Some(1),
        _ => None,
    }
}

/// A faulty subject is found among the lists, and its input made small.
fn found_by(subject: Subject) -> Input {
    let (_, input) = inputs(21, 3_000)
        .find(|(_, input)| differs(subject, input))
        .expect("found");
    let small = shrunk(subject, input.clone());
    assert!(differs(subject, &small));
    assert!(small.calls.len() <= input.calls.len());
    small
}

/// The calls of the smallest input found that shows a faulty byte run.
fn calls_of_faulty(two_axis_run: fn(&[u8], &[u8], &mut [u8]) -> u32) -> usize {
    found_by(Subject {
        two_axis_run,
        ..SECOND
    })
    .count()
}

/// The second program's run, changed where it answers 0.
fn changed(config: &[u8], calls: &[u8], output: &mut [u8], change: impl FnOnce(&mut [u8])) -> u32 {
    let result = second::two_axis_run(config, calls, output);
    if result == 0 {
        change(output);
    }
    result
}

#[test]
fn faulty_reports_and_words_are_found() {
    fn number_of_one_axis(config: &[u8], calls: &[u8], output: &mut [u8]) -> u32 {
        changed(config, calls, output, |output| {
            for words in output[77..].chunks_exact_mut(8) {
                if words[4..] == [0x7f, 0xc0, 0x00, 0x06] {
                    words[4..].fill(0);
                }
            }
        })
    }
    fn rows_while_running(config: &[u8], calls: &[u8], output: &mut [u8]) -> u32 {
        changed(config, calls, output, |output| {
            output[76] |= u8::from(output[0] >> 6 == 0) << 1;
        })
    }
    fn ticks_of_one(config: &[u8], calls: &[u8], output: &mut [u8]) -> u32 {
        changed(config, calls, output, |output| {
            let mut sums = [0; 8];
            sums[3..].copy_from_slice(&output[72..77]);
            let sums = u64::from_be_bytes(sums);
            let halved = sums >> 15 << 14 | sums & 0x3fff;
            output[72..77].copy_from_slice(&halved.to_be_bytes()[3..]);
        })
    }
    fn writes_on(config: &[u8], calls: &[u8], output: &mut [u8]) -> u32 {
        let written = 77 + 8 * (calls.len() / 20);
        changed(config, calls, output, |output| {
            if let Some(byte) = output.get_mut(written) {
                *byte ^= 1;
            }
        })
    }
    fn a_byte_less(config: &[u8], calls: &[u8], output: &mut [u8]) -> u32 {
        let mut longer = output.to_vec();
        longer.push(0);
        let result = second::two_axis_run(config, calls, &mut longer);
        output.copy_from_slice(&longer[..output.len()]);
        result
    }
    assert_eq!(calls_of_faulty(number_of_one_axis), 1);
    assert_eq!(calls_of_faulty(rows_while_running), 0);
    assert_eq!(calls_of_faulty(ticks_of_one), 1);
    assert_eq!(calls_of_faulty(writes_on), 0);
    assert_eq!(calls_of_faulty(a_byte_less), 0);
}

/// The second program's run with each axis as a single probe alone, by a configuration for that axis.
fn as_single(
    config: &[u8],
    calls: &[u8],
    output: &mut [u8],
    alone: impl Fn(&Config, usize, &[Call]) -> (Vec<u8>, Vec<u32>),
) -> u32 {
    changed(config, calls, output, |output| {
        let config = Config::of(config);
        for axis in 0..2 {
            let calls: Vec<Call> = calls_of(calls).map(|calls| calls[axis]).collect();
            let (report, words) = alone(&config, axis, &calls);
            output[36 * axis..36 * axis + 36].copy_from_slice(&report);
            for (call, word) in words.iter().enumerate() {
                let first = 77 + 8 * call + 4 * axis;
                output[first..first + 4].copy_from_slice(&word.to_be_bytes());
            }
        }
    })
}

#[test]
fn two_probes_that_share_nothing_are_found() {
    fn both_high(config: &[u8], calls: &[u8], output: &mut [u8]) -> u32 {
        as_single(config, calls, output, |config, _, calls| {
            alone(config, calls, false)
        })
    }
    fn extensions_of_their_own(config: &[u8], calls: &[u8], output: &mut [u8]) -> u32 {
        as_single(config, calls, output, |config, axis, calls| {
            alone(config, calls, axis == 1)
        })
    }
    assert_eq!(calls_of_faulty(both_high), 1);
    let calls = calls_of_faulty(extensions_of_their_own);
    assert!(calls <= 40, "{calls} calls");
}

/// The configuration of a probe that has the extension's duration from the start.
fn longer(config: &Config) -> Config {
    Config {
        duration_s: config.extension_duration_s,
        flag: 0,
        ..*config
    }
}

#[test]
fn an_amplitude_that_an_asked_axis_keeps_is_found() {
    fn keeps_its_amplitude(config: &[u8], calls: &[u8], output: &mut [u8]) -> u32 {
        let mut checked = output.to_vec();
        let taken = checked_two_axis_run(config, calls, &mut checked).taken;
        as_single(config, calls, output, |config, axis, calls| {
            let by_itself = taken.is_none_or(|taken| [taken.wanted, taken.asked][axis]);
            let config = if by_itself { *config } else { longer(config) };
            alone(&config, calls, axis == 1)
        })
    }
    let calls = calls_of_faulty(keeps_its_amplitude);
    assert!((13..=40).contains(&calls), "{calls} calls");
}

/// The part of the flight that shows a fault, and the calls of the smallest input found.
fn part_and_calls(live_pair: LivePair) -> (Option<Part>, usize) {
    let subject = Subject {
        live_pair,
        ..SECOND
    };
    let small = found_by(subject);
    let both = compared(subject, &small);
    assert_eq!(both.expected.run, both.found.run);
    (both.flights_differ_in(), small.count())
}

/// The second program with a step that does something after it, by the step's answer.
macro_rules! after_step {
    ($pair:ident, $offsets:ident, $number:ident, $change:block) => {
        LivePair {
            step: |$pair, call, $offsets| {
                let $number = (LIVE_PAIR.step)($pair, call, $offsets);
                $change
                $number
            },
            ..LIVE_PAIR
        }
    };
}

#[test]
fn a_wrong_open_is_found() {
    let second_high = LivePair {
        open: |pair, config, options| {
            let number = (LIVE_PAIR.open)(pair, config, options);
            if number == 0 {
                pair[1].words[7] = 1;
            }
            number
        },
        ..LIVE_PAIR
    };
    assert_eq!(part_and_calls(second_high), (Some(Part::Words), 1));
    let options_taken = LivePair {
        open: |pair, config, options| (LIVE_PAIR.open)(pair, config, options & 0x7fff_ffff),
        ..LIVE_PAIR
    };
    assert_eq!(part_and_calls(options_taken), (Some(Part::Opened), 0));
    let second_cleared = LivePair {
        open: |pair, config, options| {
            pair[1].words[2] = 0;
            (LIVE_PAIR.open)(pair, config, options)
        },
        ..LIVE_PAIR
    };
    assert_eq!(part_and_calls(second_cleared), (Some(Part::Written), 0));
}

#[test]
fn what_a_refused_call_writes_is_found() {
    let a_tick = after_step!(pair, offsets, number, {
        pair[1].words[2] += u32::from(number == 7);
    });
    let an_offset = after_step!(pair, offsets, number, {
        if number != 0 {
            offsets[1] = 0.0;
        }
    });
    for live_pair in [a_tick, an_offset] {
        assert_eq!(part_and_calls(live_pair), (Some(Part::Written), 1));
    }
}

#[test]
fn a_wrong_ready_is_found() {
    let of_the_first = LivePair {
        ready: |pair, dt| {
            let second = pair[1].held;
            (LIVE_PAIR.ready)(pair, dt);
            pair[1].held = second;
        },
        ..LIVE_PAIR
    };
    let always = LivePair {
        ready: |pair, _| pair.iter_mut().for_each(LiveProbe::make_marks_plain),
        ..LIVE_PAIR
    };
    for live_pair in [of_the_first, always] {
        assert_eq!(part_and_calls(live_pair), (Some(Part::Written), 1));
    }
}

#[test]
fn a_wrong_report_or_window_is_found() {
    let swapped = LivePair {
        report: |pair, output| {
            let [first, second] = pair;
            (LIVE_PAIR.report)(&[second.clone(), first.clone()], output);
        },
        ..LIVE_PAIR
    };
    let (part, calls) = part_and_calls(swapped);
    assert_eq!(part, Some(Part::Looks));
    assert!(calls <= 2, "{calls} calls");
    let into_76 = LivePair {
        report: |pair, output| {
            let mut whole = [0; 77];
            (LIVE_PAIR.report)(pair, &mut whole);
            for (byte, of_report) in output.iter_mut().zip(whole) {
                *byte = of_report;
            }
        },
        ..LIVE_PAIR
    };
    assert_eq!(part_and_calls(into_76), (Some(Part::Written), 0));
    let first_offset_in_both = after_step!(pair, offsets, number, {
        if number == 0 && pair[1].words[0] == 0 && pair[1].words[3] > 0 {
            let last = pair[1].words[3] as usize - 1;
            pair[1].offsets[last] = offsets[0];
        }
    });
    assert_eq!(
        part_and_calls(first_offset_in_both),
        (Some(Part::Window), 1)
    );
}

/// Whether memory of any bytes shows a fault, also after it is made small.
fn found_by_memory(live_pair: LivePair) -> bool {
    let craft = Craft::Two(live_pair);
    let wrong = (0..1_000)
        .map(|number| memory::memory(Axes::Two, 31, number))
        .find(|memory| memory::checked(craft, memory).is_err());
    wrong.is_some_and(|wrong| memory::checked(craft, &memory::smallest(craft, wrong)).is_err())
}

#[test]
fn faults_over_memory_of_any_bytes_are_found() {
    assert!(!found_by_memory(LIVE_PAIR));
    let ones_are_held = LivePair {
        report: |pair, output| {
            let mut pair = pair.clone();
            for mark in &mut pair[1].held {
                *mark = u8::from(*mark == 1);
            }
            (LIVE_PAIR.report)(&pair, output);
        },
        ..LIVE_PAIR
    };
    let written_when_refused = after_step!(pair, offsets, number, {
        pair[1].words[7] ^= u32::from(number == 8);
    });
    for live_pair in [ones_are_held, written_when_refused] {
        assert!(found_by_memory(live_pair));
    }
}

/// Whether pairs at odds show a fault, also after they are made small.
fn found_at_odds(live_pair: LivePair) -> bool {
    let craft = Craft::Two(live_pair);
    let wrong = (0..1_500)
        .map(|number| odds::memory(32, number))
        .find(|memory| odds::agreed(craft, memory).is_err());
    wrong.is_some_and(|wrong| {
        let small = memory::shrunk(wrong, |memory| odds::agreed(craft, memory).is_err());
        odds::agreed(craft, &small).is_err()
    })
}

#[test]
fn faults_of_pairs_at_odds_are_found() {
    assert!(!found_at_odds(LIVE_PAIR));
    // The second axis keeps the time of the first.
    let one_clock = LivePair {
        step: |pair, call, offsets| {
            if pair[0].words[0] == 0 && pair[1].words[0] == 0 {
                pair[1].floats[13] = pair[0].floats[13];
            }
            (LIVE_PAIR.step)(pair, call, offsets)
        },
        ..LIVE_PAIR
    };
    // An axis goes on where the other has ended.
    let goes_on_alone = LivePair {
        step: |pair, call, offsets| {
            if pair[0].words[0] == 0 && pair[1].words[0] != 0 {
                let [dt, rate, moment, ..] = call;
                offsets[1] = 0.0;
                return (second::LIVE.step)(&mut pair[0], [dt, rate, moment], &mut offsets[0]);
            }
            (LIVE_PAIR.step)(pair, call, offsets)
        },
        ..LIVE_PAIR
    };
    // The number of the second axis comes first.
    let second_number = LivePair {
        step: |pair, call, offsets| match (LIVE_PAIR.step)(pair, call, offsets) {
            7 if pair[1].words[0] == 0 && pair[1].words[2] >= 1 << 24 => 8,
            number => number,
        },
        ..LIVE_PAIR
    };
    // An axis without an extension does not ask.
    let asks_with_its_own = LivePair {
        step: |pair, call, offsets| {
            let [first, second] = pair;
            let flags = [first.words[5], second.words[5]];
            let running = first.words[0] == 0 && second.words[0] == 0;
            if running && flags[0] != 0 && flags[1] == 0 {
                let mut apart = [first.clone(), second.clone()];
                apart[0].words[5] = 0;
                let number = (LIVE_PAIR.step)(&mut apart, call, offsets);
                if number == 0 && apart[0].words[0] != 0 && apart[1].words[4] > 0 {
                    *pair = apart;
                    return 0;
                }
            }
            (LIVE_PAIR.step)(pair, call, offsets)
        },
        ..LIVE_PAIR
    };
    for live_pair in [one_clock, goes_on_alone, second_number, asks_with_its_own] {
        assert!(found_at_odds(live_pair));
    }
}
