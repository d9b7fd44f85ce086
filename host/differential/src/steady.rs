//! A probe that is opened as steady, and a pair, in flight: each call's answer, offsets and bytes
//! against the Rust's own probes behind the test of 02's request six.

use std::collections::BTreeMap;
use std::ops::Range;

use library::LiveProbe;
use lists::random::Random;
use lists::uneven::Clock;
use lists::{List, list_in};
use reference::byte_run::word_at;
use reference::steady::{steady_run, steady_two_axis_run};

use crate::axes::{Axes, Craft};
use crate::compare::families;
use crate::live::any_memory;
use crate::progress::Progress;

/// The option of an opening.
const STEADY: u32 = 1;

/// Longer lists are cut.
const LONGEST: usize = 3_000;

/// What an offset's place holds before a call.
const BEFORE: u32 = 0xa5a5_a5a5;

/// What was seen.
#[derive(Default)]
struct Seen {
    lists: BTreeMap<Clock, u64>,
    calls: u64,
    turned_back: [u64; 11],
    ended: u64,
}

/// The output that the reference leaves, or the number of the rule that the list breaks.
fn expected(axes: Axes, list: &List) -> Result<Vec<u8>, u32> {
    let mut output = vec![0; list.output_len];
    match axes {
        Axes::One => steady_run(&list.config, &list.calls, &mut output).map(|_| ()),
        Axes::Two => steady_two_axis_run(&list.config, &list.calls, &mut output).map(|_| ()),
    }?;
    Ok(output)
}

/// Flies one list, and says where an answer or a byte is another.
fn compared(craft: Craft, list: &List, random: &mut Random, seen: &mut Seen) -> Result<(), String> {
    let axes = craft.axes();
    let output = match expected(axes, list) {
        Err(9) => return Ok(()),
        other => other,
    };
    let config = std::array::from_fn(|place| word_at(&list.config, place));
    let mut probes = any_memory(random, axes);
    let opened = craft.open(&mut probes, &config, STEADY);
    let number = output.as_ref().err().copied().unwrap_or(0);
    if opened != number {
        return Err(format!("opening answers {opened} and not {number}"));
    }
    let Ok(output) = output else {
        return Ok(());
    };
    let (report, words) = output.split_at(axes.report_len());
    let words = words.chunks_exact(4 * axes.count());
    for (place, (call, expected)) in list
        .calls
        .chunks_exact(axes.call_len())
        .zip(words)
        .enumerate()
    {
        let call: Vec<f32> = (0..axes.call_len() / 4)
            .map(|word| f32::from_bits(word_at(call, word)))
            .collect();
        let number = called(craft, &mut probes, &call, expected)
            .map_err(|what| format!("call {place} {what}: {call:?}"))?;
        seen.calls += 1;
        seen.turned_back[number as usize] += 1;
    }
    let mut found = vec![0; report.len()];
    craft.report(&probes, &mut found);
    if found != report {
        return Err(format!("the report is {found:02X?} and not {report:02X?}"));
    }
    seen.ended += u64::from(report[0] >> 6 != 0);
    Ok(())
}

/// One call against its expected words: the number that turns it back, or 0.
fn called(
    craft: Craft,
    probes: &mut [LiveProbe],
    call: &[f32],
    expected: &[u8],
) -> Result<u32, String> {
    let before: Vec<LiveProbe> = probes.to_vec();
    let mut offsets = [f32::from_bits(BEFORE); 2];
    let found = craft.step(probes, call, &mut offsets);
    let word = word_at(expected, 0).wrapping_sub(float::NAN_BITS);
    let number = if (1..=10).contains(&word) { word } else { 0 };
    if found != number {
        return Err(format!("is answered by {found} and not by {number}"));
    }
    if number == 0 {
        for (axis, offset) in offsets.iter().enumerate().take(craft.axes().count()) {
            if float::bits(*offset) != word_at(expected, axis) {
                return Err(format!("has the offset {offset} on axis {axis}"));
            }
        }
        return Ok(0);
    }
    let same = before
        .iter()
        .zip(probes)
        .all(|(old, new)| old.bytes() == new.bytes());
    if !same || offsets.iter().any(|offset| offset.to_bits() != BEFORE) {
        return Err("is turned back, and something is written".to_string());
    }
    Ok(number)
}

/// Compares every list; false at the first that differs.
pub fn compare_all(craft: Craft, seed: u64, numbers: Range<u64>) -> bool {
    let axes = craft.axes();
    let (mut seen, mut progress) = (Seen::default(), Progress::default());
    let all = numbers.end - numbers.start;
    for number in numbers.clone() {
        let mut random = Random::numbered(seed ^ 0x5ead_1e55, number);
        let mut list = list_in(families(axes), seed, number);
        list.calls.truncate(LONGEST * axes.call_len());
        let clock = list.uneven(&mut random, axes.call_len());
        if let Err(message) = compared(craft, &list, &mut random, &mut seen) {
            let (family, clock) = (list.family, clock.name());
            println!("\nlist {number}, family {family}, {clock}: {message}");
            return false;
        }
        *seen.lists.entry(clock).or_default() += 1;
        progress.show(|| format!("{} of {all} lists", number - numbers.start));
    }
    for (clock, lists) in &seen.lists {
        println!("{lists:>8} lists: {}", clock.name());
    }
    let [_, _, _, _, _, _, six, seven, eight, _, ten] = seen.turned_back;
    println!(
        "{} calls, and {} lists that ended; turned back: {ten} by 10, {six} by 6, {seven} by 7, {eight} by 8",
        seen.calls, seen.ended
    );
    println!("no difference; {:.1} s", progress.seconds());
    true
}
