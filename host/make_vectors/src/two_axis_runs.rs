//! Whole byte runs of two axes: 01's M1 and what is turned back, then some of each family.

use std::collections::{BTreeMap, BTreeSet};
use std::fmt::Write;

use lists::{List, TWO_AXIS_FAMILIES, TwoAxisCall, list_in, two_axis_bytes};
use reference::checked::{TwoAxisAnswer, checked_two_axis_run, taken_by};
use reference::two_axis::{CALL_LEN, written_len};

use crate::file::File;
use crate::runs::untouched;

/// Runs kept of each family and way of taking the extension, each with other endings.
const EACH: usize = 2;
/// Lists looked at.
const LISTS: u64 = 6_000;
/// The longest run kept, in calls; and the family of longer ones, of which two are kept.
const LONGEST: usize = 70;
const LONG_FAMILY: &str = "full windows";
const FULL: usize = 2_048;

/// The runs, and an index of them.
pub fn two_axis_runs(seed: u64) -> (File, String) {
    let mut file = File::default();
    let mut index = String::from("run\tlist\tfamily\tendings\textension taken by\tcalls\n");
    for list in marked() {
        let (answer, output) = answered(&list);
        add(&mut file, &mut index, "-", &list, &answer, &output);
    }
    let mut kept: BTreeMap<(&str, &str), usize> = BTreeMap::new();
    let mut seen = BTreeSet::new();
    for number in 0..LISTS {
        let list = list_in(&TWO_AXIS_FAMILIES, seed, number);
        let calls = list.calls.len() / CALL_LEN;
        let long = list.family == LONG_FAMILY && calls > FULL;
        if calls > LONGEST && !long {
            continue;
        }
        let (answer, output) = answered(&list);
        // Of the long ones, one each with and without the extension.
        let way = match taken_by(answer.taken) {
            "none" => "none",
            _ if long => "some",
            way => way,
        };
        let count = kept.entry((list.family, way)).or_default();
        let most = if long { 1 } else { EACH };
        if *count == most || !seen.insert((list.family, endings(&answer))) {
            continue;
        }
        *count += 1;
        add(
            &mut file,
            &mut index,
            &number.to_string(),
            &list,
            &answer,
            &output,
        );
    }
    (file, index)
}

/// The reference's answer, and the output after it.
fn answered(list: &List) -> (TwoAxisAnswer, Vec<u8>) {
    let mut output: Vec<u8> = (0..list.output_len).map(untouched).collect();
    let answer = checked_two_axis_run(&list.config, &list.calls, &mut output);
    (answer, output)
}

fn add(
    file: &mut File,
    index: &mut String,
    number: &str,
    list: &List,
    answer: &TwoAxisAnswer,
    output: &[u8],
) {
    let run = file.records();
    writeln!(
        index,
        "{run}\t{number}\t{}\t{}\t{}\t{}",
        list.family,
        endings(answer),
        taken_by(answer.taken),
        list.calls.len() / CALL_LEN
    )
    .expect("text");
    file.record_of(list.family).run(list, answer.result, output);
}

fn endings(answer: &TwoAxisAnswer) -> String {
    let [first, second] = answer.axes.each_ref().map(|axis| axis.ending.name());
    format!("{first} | {second}")
}

/// M1 as a pair; the same with wrong sizes and by each rule; calls turned back; late calls.
fn marked() -> Vec<List> {
    const CONFIG: [f32; 6] = [1.0, 1.0, 0.5, 0.0, 0.0, 0.0];
    const CALL: TwoAxisCall = [0.25, 0.0, 0.0, 0.0, 0.0];
    let list = |family, config: [f32; 6], calls: &[TwoAxisCall]| List {
        family,
        config: config
            .iter()
            .flat_map(|value| value.to_bits().to_be_bytes())
            .collect(),
        calls: two_axis_bytes(calls),
        output_len: written_len(calls.len()),
    };
    let m1 = |family| list(family, CONFIG, &[CALL; 4]);
    let mut made = vec![m1("M1"), list("no calls", CONFIG, &[])];
    for len in [0, 23, 25] {
        let mut wrong = m1("configuration not 24 bytes");
        wrong.config.resize(len, 0);
        made.push(wrong);
    }
    for len in [79, 81, 48] {
        let mut wrong = m1("calls not a multiple of 20");
        wrong.calls.resize(len, 0);
        made.push(wrong);
    }
    for more in [-109, -1, 0, 1, 9] {
        let mut other = m1("output around 77 + 8 bytes a call");
        other.output_len = other.output_len.saturating_add_signed(more);
        made.push(other);
    }
    const NAN: f32 = f32::NAN;
    // The flag is 1.0, whose bits are not 0.
    for config in [
        [0.0, 1.0, 0.5, 0.0, 0.0, 0.0],
        [1.0, -1.0, 0.5, 0.0, 0.0, 0.0],
        [1.0, 3_600.000_2, NAN, 0.0, 0.0, 0.0],
        [1.0, 1.0, 0.0, 0.0, 0.0, 0.0],
        [1.0, 1.0, 0.5, 1.0, NAN, 2.0],
        [1.0, 6.0, 0.5, 1.0, 1.0, 5.0],
        [1.0, 1.0, 0.5, 0.0, NAN, NAN],
        [NAN, NAN, NAN, 1.0, NAN, NAN],
    ] {
        made.push(list("rules 1 to 5", config, &[CALL; 2]));
    }
    let dt = |dt| [dt, 0.5, -0.5, NAN, 0.25];
    let refused = [
        0.25, 0.0, 5_000.0, 0.25, NAN, 0.25, 4_096.0, 0.25, 5_000.0, -1.0, 0.25,
    ];
    made.push(list("refused and late calls", CONFIG, &refused.map(dt)));
    made.push(list(
        "dt 4,096 at first",
        CONFIG,
        &[4_096.0, 4_096.0, 0.0].map(dt),
    ));
    made
}
