//! Whole runs of a probe that is opened as steady, and of a pair: calls at the band's ends and in the
//! order of the rules, then some lists of each kind of clock.

use std::collections::{BTreeMap, BTreeSet};
use std::fmt::Write;

use lists::random::Random;
use lists::uneven::Clock;
use lists::{
    Call, Config, FAMILIES, Family, List, TWO_AXIS_FAMILIES, TwoAxisCall, call_bytes, list_in,
    two_axis_bytes,
};
use reference::steady::{steady_run, steady_two_axis_run};
use reference::{byte_run, two_axis};

use crate::file::File;
use crate::runs::untouched;

/// Runs kept of each kind of clock and ending.
const EACH: usize = 6;
/// Lists looked at.
const LISTS: u64 = 6_000;
/// The longest run kept, in calls.
const LONGEST: usize = 120;

/// One axis or two.
struct Kind {
    families: &'static [Family],
    call_len: usize,
    /// Makes the bytes of calls that have these dt.
    calls: fn(&[f32]) -> Vec<u8>,
    written_len: fn(usize) -> usize,
    run: fn(&[u8], &[u8], &mut [u8]) -> u32,
}

const ONE: Kind = Kind {
    families: &FAMILIES,
    call_len: byte_run::CALL_LEN,
    calls: one_axis,
    written_len: byte_run::written_len,
    run: |config, calls, output| steady_run(config, calls, output).map_or_else(|n| n, |_| 0),
};

const TWO: Kind = Kind {
    families: &TWO_AXIS_FAMILIES,
    call_len: two_axis::CALL_LEN,
    calls: two_axes,
    written_len: two_axis::written_len,
    run: |config, calls, output| {
        steady_two_axis_run(config, calls, output).map_or_else(|n| n, |_| 0)
    },
};

/// The runs of one axis, and an index of them.
pub fn steady_runs(seed: u64) -> (File, String) {
    runs(&ONE, seed)
}

/// Those of two axes.
pub fn steady_two_axis_runs(seed: u64) -> (File, String) {
    runs(&TWO, seed)
}

fn runs(kind: &Kind, seed: u64) -> (File, String) {
    let mut file = File::default();
    let mut index = String::from("run\tlist\tfamily\tclock\tending\tturned back by 10\tcalls\n");
    for list in marked(kind) {
        add(kind, &mut file, &mut index, "-\t-", &list);
    }
    let mut kept: BTreeMap<(Clock, String), usize> = BTreeMap::new();
    let mut seen = BTreeSet::new();
    for number in 0..LISTS {
        let mut list = list_in(kind.families, seed, number);
        let calls = list.calls.len() / kind.call_len;
        if calls > LONGEST || list.output_len < (kind.written_len)(calls) {
            continue;
        }
        let mut random = Random::numbered(!seed, number);
        let clock = list.uneven(&mut random, kind.call_len);
        let (result, output) = answered(kind, &list);
        if result == 9 {
            // Sizes are not the live functions' rule.
            continue;
        }
        let ending = ending(kind, result, &output);
        let count = kept.entry((clock, ending.clone())).or_default();
        if *count == EACH || !seen.insert((list.family, clock)) {
            continue;
        }
        *count += 1;
        let made = format!("{number}\t{}", clock.name());
        add(kind, &mut file, &mut index, &made, &list);
    }
    (file, index)
}

/// The reference's number, and the output after it.
fn answered(kind: &Kind, list: &List) -> (u32, Vec<u8>) {
    let mut output: Vec<u8> = (0..list.output_len).map(untouched).collect();
    let result = (kind.run)(&list.config, &list.calls, &mut output);
    (result, output)
}

/// The number that a run is refused with, or what each axis has ended in.
fn ending(kind: &Kind, result: u32, output: &[u8]) -> String {
    if result != 0 {
        return format!("refused {result}");
    }
    let two = kind.call_len == two_axis::CALL_LEN;
    let reports = [0, 36].into_iter().take(1 + usize::from(two));
    let names = reports.map(|at| match output[at] >> 6 {
        0 => "running",
        1 => "done",
        2 => "unexcited",
        _ => "saturated",
    });
    names.collect::<Vec<&str>>().join(" | ")
}

fn add(kind: &Kind, file: &mut File, index: &mut String, made: &str, list: &List) {
    let (result, output) = answered(kind, list);
    let calls = list.calls.len() / kind.call_len;
    let report = (kind.written_len)(0);
    let each = (kind.written_len)(1) - report;
    let ten = (float::NAN_BITS + 10).to_be_bytes();
    let words = output[report..].chunks_exact(each).take(calls);
    let turned_back = match result {
        0 => words.filter(|word| word[..4] == ten).count(),
        _ => 0,
    };
    let run = file.records();
    let (number, clock) = made.split_once('\t').expect("a number and a clock");
    let ending = ending(kind, result, &output);
    writeln!(
        index,
        "{run}\t{number}\t{}\t{clock}\t{ending}\t{turned_back}\t{calls}",
        list.family
    )
    .expect("text");
    file.record_of(list.family).run(list, result, &output);
}

// ---- calls that are marked

/// Rates and moments of no meaning, which the calls take in turn.
const RATES: [f32; 3] = [0.1, -0.2, 0.3];
const MOMENTS: [f32; 2] = [0.5, -0.25];

fn one_axis(dts: &[f32]) -> Vec<u8> {
    let call = |(place, dt): (usize, &f32)| Call {
        dt: *dt,
        rate: RATES[place % 3],
        moment: MOMENTS[place % 2],
    };
    call_bytes(&dts.iter().enumerate().map(call).collect::<Vec<Call>>())
}

fn two_axes(dts: &[f32]) -> Vec<u8> {
    let call = |(place, dt): (usize, &f32)| {
        let (rate, moment) = (RATES[place % 3], MOMENTS[place % 2]);
        [*dt, rate, moment, -rate, -moment]
    };
    let calls: Vec<TwoAxisCall> = dts.iter().enumerate().map(call).collect();
    two_axis_bytes(&calls)
}

/// The first accepted dt of any exponent with the band's ends; the order of the rules; calls that are no
/// first accepted one, and calls after the end; a clock that drops every third tick.
fn marked(kind: &Kind) -> Vec<List> {
    const NAN: f32 = f32::NAN;
    const INFINITY: f32 = f32::INFINITY;
    let list = |family, duration_s, dts: &[f32]| {
        let config = Config {
            amplitude: 1.0,
            duration_s,
            washout_tc_s: 0.5,
            flag: 0,
            extension_amplitude: 0.0,
            extension_duration_s: 0.0,
        };
        List {
            family,
            config: config.bytes(),
            calls: (kind.calls)(dts),
            output_len: (kind.written_len)(dts.len()),
        }
    };
    let mut made = vec![
        list("after 0.004", 1.0, &around(0.004)),
        list("after the least value", 1.0, &around(f32::from_bits(1))),
        list("no calls", 1.0, &[]),
        list("rule 2", 0.0, &[0.25; 2]),
        list(
            "10 after 6, before 7",
            3_600.0,
            &[0.25, 5_000.0, NAN, 0.0, INFINITY, -1.0, -0.0, 0.4, 0.25],
        ),
        list(
            "7 inside the band",
            3_600.0,
            &[1_200.0, 1_450.0, 1_460.0, 1_440.0, 1_430.0, 900.0],
        ),
        list(
            "first turned back by 7",
            3_600.0,
            &[5_000.0, 1.0, 0.7, 0.8, 1.2, 1.3, 5_000.0],
        ),
        list(
            "first turned back by 6",
            3_600.0,
            &[NAN, -2.0, 1.0, 2.0, 1.25],
        ),
        list(
            "after the end",
            1.0,
            &[0.25, 0.25, 0.2, 0.3, 0.5, 0.1, 5_000.0, NAN, 0.0, 0.25],
        ),
        list("the first ends it", 1.0, &[4_096.0, 1.0, 5_000.0, 0.0]),
    ];
    let dropped: Vec<f32> = (0..60).map(|call| [0.25, 0.5][call % 2]).collect();
    made.push(list("every third tick dropped", 60.0, &dropped));
    // From subnormals to 4,096 s.
    for exponent in -149..12 {
        let first = (1.7 * 2.0f64.powi(exponent)) as f32;
        made.push(list("a first dt of each exponent", 3_600.0, &around(first)));
    }
    made
}

/// A first dt, then the band's ends and the values next to them.
fn around(first: f32) -> Vec<f32> {
    let ends = [0.75 * first, 1.25 * first];
    let near = ends
        .iter()
        .flat_map(|end| [-1, 0, 1].map(|off| end.to_bits().wrapping_add_signed(off)));
    std::iter::once(first)
        .chain(near.map(f32::from_bits))
        .collect()
}
