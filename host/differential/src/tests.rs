mod live;
mod two_axis;

use reference::access::{self, Samples, before_four};
use reference::byte_run::{byte_run, probe_run};
use reference::checked::Answer;

use crate::axes::Axes;
use crate::changed;
use crate::compare::{Input, Returned, compared, reference_run};
use crate::exhaustive;
use crate::shrink::shrunk;
use crate::subject::{SECOND, Subject};
use crate::units;

fn differs(subject: Subject, input: &Input) -> bool {
    compared(subject, input).differ()
}

/// The inputs of lists 0 to `count` of a seed.
fn inputs(seed: u64, count: u64) -> impl Iterator<Item = (&'static str, Input)> {
    (0..count).map(move |number| Input::numbered(Axes::One, None, seed, number))
}

#[test]
fn the_second_program_agrees_with_the_reference() {
    for (number, (family, input)) in inputs(20, 2_000).enumerate() {
        assert!(!differs(SECOND, &input), "list {number}, {family}");
    }
}

#[test]
fn a_seed_gives_the_same_lists() {
    assert!(inputs(3, 200).eq(inputs(3, 200)));
    assert!(inputs(3, 200).ne(inputs(4, 200)));
}

#[test]
fn short_lists_agree() {
    for input in exhaustive::inputs().step_by(61) {
        assert!(!differs(SECOND, &input), "{input:?}");
    }
}

/// The second program with another number where 6 turns a call back.
fn answers_8_for_6(config: &[u8], calls: &[u8], output: &mut [u8]) -> u32 {
    let result = second::byte_run(config, calls, output);
    if result == 0 {
        for word in output[36..].chunks_exact_mut(4) {
            if word == [0x7f, 0xc0, 0x00, 0x06] {
                word[3] = 8;
            }
        }
    }
    result
}

/// The second program, writing one byte past its output.
fn writes_on(config: &[u8], calls: &[u8], output: &mut [u8]) -> u32 {
    let result = second::byte_run(config, calls, output);
    let written = 36 + 4 * (calls.len() / 12);
    if result == 0 && output.len() > written {
        output[written] ^= 1;
    }
    result
}

/// The second program with the least bit of a weight changed where a model holds a half delay.
fn half_delay_off(config: &[u8], calls: &[u8], output: &mut [u8]) -> u32 {
    let result = second::byte_run(config, calls, output);
    let integrated =
        result == 0 && output[0] >> 6 == 1 && output[24..28] != [0; 4] && output[10] != 0;
    if integrated {
        output[27] ^= 1;
    }
    result
}

/// A change to the first byte of the second program's report, from the byte and the three moment
/// weights.
fn first_byte(
    config: &[u8],
    calls: &[u8],
    output: &mut [u8],
    change: fn(u8, [f32; 3]) -> u8,
) -> u32 {
    let result = second::byte_run(config, calls, output);
    if result == 0 {
        let weight = |place: usize| {
            f32::from_be_bytes(output[place..place + 4].try_into().expect("four bytes"))
        };
        output[0] = change(output[0], [weight(20), weight(24), weight(28)]);
    }
    result
}

/// The half tick worked out from the weights, as where they are two halves of a gain.
fn half_from_weights(config: &[u8], calls: &[u8], output: &mut [u8]) -> u32 {
    first_byte(config, calls, output, |byte, [m0, m1, m2]| {
        let half = byte >> 6 == 1 && m0 == m1 && m0 != 0.0 && m2 == 0.0;
        byte & 0xfd | u8::from(half) << 1
    })
}

/// The half tick at the second of the two bits after d.
fn half_at_the_second_bit(config: &[u8], calls: &[u8], output: &mut [u8]) -> u32 {
    first_byte(config, calls, output, |byte, _| byte & 0xfc | byte >> 1 & 1)
}

/// The half tick set for an abort.
fn half_of_an_abort(config: &[u8], calls: &[u8], output: &mut [u8]) -> u32 {
    first_byte(config, calls, output, |byte, _| {
        byte | u8::from(byte >> 7 == 1) << 1
    })
}

/// The input that shows a faulty byte run, made small.
fn found(byte_run: fn(&[u8], &[u8], &mut [u8]) -> u32) -> Input {
    found_by(Subject { byte_run, ..SECOND })
}

/// A faulty subject is found among the lists, and its input made small.
fn found_by(subject: Subject) -> Input {
    let (_, input) = inputs(21, 3_000)
        .find(|(_, input)| differs(subject, input))
        .expect("found");
    let small = shrunk(subject, input.clone());
    assert!(differs(subject, &small));
    assert!(small.calls.len() <= input.calls.len());
    small
}

#[test]
fn a_wrong_number_is_found_and_shrunk_to_one_call() {
    assert_eq!(found(answers_8_for_6).calls.len(), 12);
}

#[test]
fn a_byte_too_many_is_found() {
    assert_eq!(found(writes_on).calls.len(), 0);
}

#[test]
fn a_wrong_bit_of_a_model_is_found() {
    let small = found(half_delay_off);
    assert!(small.calls.len() <= 12 * 40, "{} bytes", small.calls.len());
}

#[test]
fn a_wrong_half_tick_is_found() {
    assert_eq!(found(half_of_an_abort).calls.len(), 12);
    for wrong in [half_from_weights, half_at_the_second_bit] {
        let small = found(wrong);
        assert!(small.calls.len() <= 12 * 60, "{} bytes", small.calls.len());
    }
}

/// Lists 0 to `count` of a seed in a family.
fn of_family(name: &str, seed: u64, count: u64) -> impl Iterator<Item = Input> + use<> {
    let family = lists::FAMILIES.iter().find(|family| family.name == name);
    let family = family.expect("the family");
    (0..count).map(move |number| Input::numbered(Axes::One, Some(family), seed, number).1)
}

#[test]
fn a_gain_of_0_wins_at_half_delays() {
    let mut seen = std::collections::BTreeMap::new();
    for list in of_family("gain of 0", 9, 400) {
        let mut output = vec![0; list.output_len];
        assert_eq!(second::byte_run(&list.config, &list.calls, &mut output), 0);
        let half_ticks = 2 * (output[0] >> 2 & 0xf) + (output[0] >> 1 & 1);
        if output[0] >> 6 == 1 {
            assert!(output[20..32].iter().all(|byte| *byte & 0x7f == 0));
            *seen.entry(half_ticks).or_insert(0) += 1;
        }
    }
    let delays: Vec<u8> = seen.keys().copied().collect();
    assert_eq!(delays, [2, 3, 5, 7, 9, 11, 13, 15, 17, 19], "{seen:?}");
    assert!(seen.values().all(|count| *count >= 10), "{seen:?}");
}

/// The window that a list leaves.
fn window(input: &Input) -> Samples {
    let mut output = vec![0; input.output_len];
    match probe_run(&input.config, &input.calls, &mut output) {
        Ok(probe) => access::samples(probe.inner()),
        Err(number) => panic!("refused by {number}"),
    }
}

#[test]
fn rates_beyond_f32_apart_are_stored_side_by_side() {
    for input in of_family("rates beyond f32 apart", 10, 300) {
        let rates = window(&input).rates;
        let apart = |pair: &[f32]| (pair[1] - pair[0]).is_infinite();
        assert!(rates.windows(2).any(apart), "{rates:?}");
    }
}

/// How many lists of a family answer as asked, now and before request four.
fn counted(name: &str, seed: u64, count: u64, asked: fn(&(Answer, Returned)) -> bool) -> [u64; 2] {
    let mut counts = [0; 2];
    for input in of_family(name, seed, count) {
        let before = before_four(|| reference_run(&input));
        for (count, answered) in counts.iter_mut().zip([reference_run(&input), before]) {
            *count += u64::from(asked(&answered));
        }
    }
    counts
}

#[test]
fn rates_beyond_f32_apart_gave_weights_that_are_not_finite() {
    let [now, before] = counted("rates beyond f32 apart", 10, 300, changed::not_finite);
    assert_eq!(now, 0);
    assert!(before >= 100, "{before} of 300");
}

#[test]
fn gains_beyond_f32_gave_weights_that_are_not_finite() {
    let [now, before] = counted("gain beyond f32", 10, 200, changed::not_finite);
    assert_eq!(now, 0);
    assert!(before >= 100, "{before} of 200");
}

#[test]
fn recorded_errors_beyond_f32_are_nan_and_infinite() {
    let differences = [f32::NAN, f32::INFINITY, f32::NEG_INFINITY].map(float::bits);
    let mut lists = [0; 3];
    for input in of_family("recorded error beyond f32", 10, 300) {
        let sums = access::recorded_sums(&window(&input));
        // Of the delays with a finite solution.
        let found: Vec<u32> = sums
            .iter()
            .filter_map(|sums| sums.difference())
            .filter(|(solution, _)| solution.iter().all(|value| value.is_finite()))
            .map(|(_, difference)| float::bits(difference))
            .collect();
        for (count, difference) in lists.iter_mut().zip(differences) {
            *count += u32::from(found.contains(&difference));
        }
    }
    let [nan, infinite, minus_infinite] = lists;
    assert!(
        nan >= 100 && infinite >= 20 && minus_infinite >= 20,
        "{lists:?} of 300"
    );
}

/// The narrowed gains of a window, at each step and at every sixteenth pole, before request four.
fn gains(samples: &Samples) -> Vec<f32> {
    let dt_s = samples.duration_s / samples.len() as f32;
    let mut gains = Vec::new();
    for pole in access::lag_poles(dt_s).into_iter().step_by(16) {
        let lagged = access::lag_through(&samples.moments, pole);
        for step in 0..20 {
            let fit = || access::fit_gain(&samples.rates, &lagged, step, access::carry(dt_s));
            gains.extend(before_four(fit).map(|(gain, _)| gain));
        }
    }
    gains
}

#[test]
fn gains_beyond_f32_are_infinite_at_some_poles_and_steps() {
    let [mut some, mut all] = [0; 2];
    for input in of_family("gain beyond f32", 10, 200) {
        let gains = gains(&window(&input));
        let infinite = gains.iter().filter(|gain| gain.is_infinite()).count();
        some += u32::from(infinite > 0);
        all += u32::from(infinite == gains.len());
    }
    assert!(some >= 150 && all < 20, "{some} and {all} of 200");
}

#[test]
fn searches_are_cut_short_in_each_round() {
    let mut rounds = [0; 13];
    for input in of_family("search cut short", 10, 300) {
        let (answer, _) = reference_run(&input);
        if answer.ending.done_by_integrated() {
            rounds[(answer.gain_fits - 2_580) as usize / 2] += 1;
        }
    }
    assert!(rounds[1..12].iter().all(|count| *count > 0), "{rounds:?}");
    assert!(rounds[1..12].iter().sum::<u32>() >= 150, "{rounds:?}");
}

#[test]
fn fits_before_request_four_are_found() {
    /// The reference without the two tests.
    fn before(config: &[u8], calls: &[u8], output: &mut [u8]) -> u32 {
        before_four(|| byte_run(config, calls, output))
    }
    let subject = Subject {
        byte_run: before,
        ..SECOND
    };
    for family in [
        "rates beyond f32 apart",
        "recorded error beyond f32",
        "gain beyond f32",
        "search cut short",
    ] {
        let found = of_family(family, 11, 100).any(|input| differs(subject, &input));
        assert!(found, "{family}");
    }
}

#[test]
fn a_refused_run_is_compared_too() {
    fn zero(_: &[u8], _: &[u8], _: &mut [u8]) -> u32 {
        0
    }
    let subject = Subject {
        byte_run: zero,
        ..SECOND
    };
    let input = Input {
        axes: Axes::One,
        config: vec![0; 24],
        calls: vec![],
        output_len: 36,
        memory: 0,
    };
    let both = compared(subject, &input);
    assert_eq!(both.axes[0].result, 1);
    assert_eq!(both.found.run.result, 0);
}

#[test]
fn the_plain_units_of_any_report_agree() {
    for number in 0..200_000 {
        let report = units::input(22, number);
        assert!(units::difference(SECOND, &report).is_none(), "{report:?}");
    }
}

/// A change to the second program's plain units, made where the answer holds both numbers: the
/// report's floats, and the answer's lag and acceleration.
type Change = fn([f32; 6], &mut f32, &mut f32);

fn changed(report: &[u8], output: &mut [u8], change: Change) -> u32 {
    let result = second::plain_units(report, output);
    if result == 0 && output[3] == 1 {
        let word = |bytes: &[u8]| f32::from_bits(u32::from_be_bytes(bytes.try_into().unwrap()));
        let floats = std::array::from_fn(|place| word(&report[12 + 4 * place..16 + 4 * place]));
        let (mut lag, mut acceleration) = (word(&output[4..8]), word(&output[8..]));
        change(floats, &mut lag, &mut acceleration);
        output[4..8].copy_from_slice(&float::bits(lag).to_be_bytes());
        output[8..].copy_from_slice(&float::bits(acceleration).to_be_bytes());
    }
    result
}

/// The lag from a logarithm that is not narrowed.
fn not_narrowed(report: &[u8], output: &mut [u8]) -> u32 {
    changed(report, output, |[_, r2, _, _, _, dt_s], lag, _| {
        if r2 < 0.0 {
            *lag = (-f64::from(dt_s) / f64::from(-r2).ln()) as f32;
        }
    })
}

/// A zero before the three moment weights.
fn zero_before(report: &[u8], output: &mut [u8]) -> u32 {
    changed(
        report,
        output,
        |[_, r2, m0, m1, m2, dt_s], _, acceleration| {
            *acceleration = (0.0 + m0 + m1 + m2) / ((1.0 - float::max_zero(-r2)) * dt_s);
        },
    )
}

/// Divided by one factor and then by the other.
fn divided_twice(report: &[u8], output: &mut [u8]) -> u32 {
    changed(
        report,
        output,
        |[_, r2, m0, m1, m2, dt_s], _, acceleration| {
            *acceleration = (m0 + m1 + m2) / (1.0 - float::max_zero(-r2)) / dt_s;
        },
    )
}

/// A pole below 0 taken as it is.
fn pole_below_0(report: &[u8], output: &mut [u8]) -> u32 {
    changed(
        report,
        output,
        |[_, r2, m0, m1, m2, dt_s], _, acceleration| {
            *acceleration = (m0 + m1 + m2) / ((1.0 + r2) * dt_s);
        },
    )
}

/// A lag for a report of any kind.
fn any_kind(report: &[u8], output: &mut [u8]) -> u32 {
    let mut done = report.to_vec();
    if let Some(head) = done.first_mut() {
        *head = *head & 0x3f | 0x40;
    }
    second::plain_units(&done, output)
}

/// Zeros written where the sizes are wrong.
fn writes_zeros(report: &[u8], output: &mut [u8]) -> u32 {
    let result = second::plain_units(report, output);
    if result == 9 {
        output.fill(0);
    }
    result
}

/// A longer output taken too.
fn takes_more(report: &[u8], output: &mut [u8]) -> u32 {
    let len = output.len().min(12);
    second::plain_units(report, &mut output[..len])
}

#[test]
fn wrong_plain_units_are_found_and_made_simple() {
    for (name, plain_units) in [
        ("not narrowed", not_narrowed as library::PlainUnits),
        ("zero before", zero_before),
        ("divided twice", divided_twice),
        ("pole below 0", pole_below_0),
        ("any kind", any_kind),
        ("zeros written", writes_zeros),
        ("longer output", takes_more),
    ] {
        let subject = Subject {
            plain_units,
            ..SECOND
        };
        let differs = |report: &_| units::difference(subject, report).is_some();
        let report = (0..20_000)
            .map(|number| units::input(23, number))
            .find(differs)
            .unwrap_or_else(|| panic!("{name} is not found"));
        let small = units::shrunk(subject, report);
        assert!(differs(&small), "{name}");
        // Counts and the first rate weight, which are not looked at.
        assert!(
            small.bytes.iter().skip(4).take(12).all(|byte| *byte == 0),
            "{name}"
        );
    }
}

#[test]
fn wrong_plain_units_of_a_list_are_found() {
    let subject = Subject {
        plain_units: not_narrowed,
        ..SECOND
    };
    let (_, input) = inputs(21, 3_000)
        .find(|(_, input)| differs(subject, input))
        .expect("found");
    let both = compared(subject, &shrunk(subject, input));
    assert_eq!(both.expected.run, both.found.run);
    assert_ne!(both.expected.units, both.found.units);
}
