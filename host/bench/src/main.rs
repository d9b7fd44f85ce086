//! Times the reference and the proved library side by side, in one run: interleaved repetitions,
//! the median of each one's times, and the median of the ratios of two neighbouring times, the
//! reference's to the library's. A clock that changes during the run changes the times, and the
//! ratios little.

use std::hint::black_box;
use std::process::ExitCode;
use std::time::{Duration, Instant};

use library::{ByteRun, Live, LivePair, LiveProbe, PlainUnits};
use reference::access::{self, IdentifyProbe};
use reference::byte_run::{Call, byte_run, calls_of, config_of, word_at, written_len};
use reference::plain_units::plain_units;
use reference::two_axis;

const DT_S: f32 = 0.004;

/// A small generator of noise in -1 to 1.
struct Noise(u32);

impl Noise {
    fn next(&mut self) -> f32 {
        self.0 = self.0.wrapping_mul(1_664_525).wrapping_add(1_013_904_223);
        (self.0 >> 16) as f32 / 32_768.0 - 1.0
    }
}

/// A byte run's input.
struct Run {
    config: Vec<u8>,
    calls: Vec<u8>,
}

impl Run {
    /// `ticks` calls to a probe of this duration. The rate follows the moment of four ticks before,
    /// with noise on what is read.
    fn new(ticks: usize, duration_s: f32, noise: f32) -> Run {
        let config = [1.0, duration_s, 0.2, 0.0, 0.0, 0.0];
        let mut random = Noise(1);
        let mut moments = vec![0.0f32; ticks + 4];
        let (mut rate, mut change) = (0.0f32, 0.0f32);
        let mut calls = Vec::with_capacity(12 * ticks);
        for tick in 0..ticks {
            moments[tick + 4] = if tick / 60 % 2 == 0 { 0.4 } else { -0.4 } + 0.1 * random.next();
            change = 0.8 * change + 0.2 * 0.05 * moments[tick];
            rate = 0.99 * rate + change;
            for value in [DT_S, rate + noise * random.next(), moments[tick + 4]] {
                calls.extend(value.to_bits().to_be_bytes());
            }
        }
        Run {
            config: config
                .iter()
                .flat_map(|value: &f32| value.to_bits().to_be_bytes())
                .collect(),
            calls,
        }
    }

    fn calls(&self) -> usize {
        self.calls.len() / 12
    }

    fn time(&self, run: ByteRun, output: &mut [u8]) -> Duration {
        let start = Instant::now();
        black_box(run(black_box(&self.config), black_box(&self.calls), output));
        start.elapsed()
    }
}

fn median(values: impl Iterator<Item = f64>) -> f64 {
    let mut values: Vec<f64> = values.collect();
    values.sort_by(f64::total_cmp);
    values[values.len() / 2]
}

/// Both times of a run in s, one pair a repetition; the outputs are compared.
fn times(run: &Run, library: ByteRun, repetitions: usize) -> Vec<(f64, f64)> {
    let mut outputs = [(); 2].map(|()| vec![0; written_len(run.calls())]);
    let [ours, theirs] = &mut outputs;
    let pairs = (0..repetitions)
        .map(|_| {
            let library = run.time(library, ours);
            let reference = run.time(byte_run, theirs);
            (reference.as_secs_f64(), library.as_secs_f64())
        })
        .collect();
    assert_eq!(ours, theirs, "the outputs differ");
    pairs
}

/// A step's times in s.
struct StepTimes {
    /// The Rust's own `step`, without a refusal around it.
    reference: f64,
    live: f64,
    byte_run: f64,
}

/// Calls one after the other, from native floats to native offsets; the time of all in s.
fn time_calls<C: Copy, O>(calls: &[C], offsets: &mut [O], mut step: impl FnMut(C, &mut O)) -> f64 {
    let start = Instant::now();
    for (call, offset) in black_box(calls).iter().zip(&mut *offsets) {
        step(*call, offset);
    }
    black_box(offsets);
    start.elapsed().as_secs_f64()
}

/// A live step. The library's constant is called, and so without a pointer, as from C.
fn live_step(probe: &mut LiveProbe, call: Call, offset: &mut f32) {
    if let Some(live) = library::LIVE {
        (live.step)(probe, [call.dt, call.rate, call.moment], offset);
    }
}

/// The three times of the steps of a run, one set a repetition; the offsets are compared.
fn step_times(run: &Run, library: ByteRun, live: Live, repetitions: usize) -> Vec<StepTimes> {
    let calls: Vec<Call> = calls_of(&run.calls).collect();
    let config = std::array::from_fn(|place| word_at(&run.config, place));
    let mut output = vec![0; written_len(calls.len())];
    let [mut ours, mut theirs] = [(); 2].map(|()| vec![0.0f32; calls.len()]);
    let per = calls.len() as f64;
    let mut probe = Box::new(LiveProbe::ZERO);
    let times = (0..repetitions)
        .map(|_| {
            assert_eq!((live.open)(&mut probe, &config, 0), 0, "open");
            let live = time_calls(&calls, &mut ours, |call, offset| {
                live_step(&mut probe, call, offset);
            });
            let byte_run = run.time(library, &mut output).as_secs_f64();
            let mut own = Box::new(IdentifyProbe::new(config_of(&run.config)));
            let reference = time_calls(&calls, &mut theirs, |call, offset| {
                *offset = own.step(call.dt, call.rate, call.moment);
            });
            StepTimes {
                reference: reference / per,
                live: live / per,
                byte_run: byte_run / per,
            }
        })
        .collect();
    assert_eq!(bits(&ours), bits(&theirs), "the offsets differ");
    times
}

fn bits(offsets: &[f32]) -> Vec<u32> {
    offsets.iter().map(|offset| offset.to_bits()).collect()
}

/// The calls of two axes, of which the second reads what the first has read a tick before.
fn two_axis_calls(run: &Run) -> Vec<[f32; 5]> {
    let calls: Vec<Call> = calls_of(&run.calls).collect();
    let before = [calls[0]].into_iter().chain(calls.iter().copied());
    calls
        .iter()
        .zip(before)
        .map(|(one, other)| [one.dt, one.rate, one.moment, other.rate, other.moment])
        .collect()
}

/// A live step of two axes, called as [`live_step`] is.
fn live_pair_step(pair: &mut [LiveProbe; 2], call: [f32; 5], offsets: &mut [f32; 2]) {
    if let Some(live) = library::LIVE_PAIR {
        (live.step)(pair, call, offsets);
    }
}

/// The three times of the steps of two axes, where the reference's is that of two steps of the Rust's
/// own; the offsets are compared.
fn two_axis_times(
    run: &Run,
    library: ByteRun,
    live: LivePair,
    repetitions: usize,
) -> Vec<StepTimes> {
    let calls = two_axis_calls(run);
    let both = Run {
        config: run.config.clone(),
        calls: calls
            .iter()
            .flatten()
            .flat_map(|value| value.to_bits().to_be_bytes())
            .collect(),
    };
    let config = std::array::from_fn(|place| word_at(&run.config, place));
    let mut output = vec![0; two_axis::written_len(calls.len())];
    let [mut ours, mut theirs] = [(); 2].map(|()| vec![[0.0f32; 2]; calls.len()]);
    let per = calls.len() as f64;
    let mut pair = Box::new([LiveProbe::ZERO, LiveProbe::ZERO]);
    let times = (0..repetitions)
        .map(|_| {
            assert_eq!((live.open)(&mut pair, &config, 0), 0, "open");
            let live = time_calls(&calls, &mut ours, |call, offsets| {
                live_pair_step(&mut pair, call, offsets);
            });
            let byte_run = both.time(library, &mut output).as_secs_f64();
            let config = config_of(&run.config);
            let mut first = Box::new(IdentifyProbe::new(config));
            let mut second = Box::new(access::starting_low(config));
            let reference = time_calls(&calls, &mut theirs, |call, offsets| {
                let [dt, rate_1, moment_1, rate_2, moment_2] = call;
                *offsets = [
                    first.step(dt, rate_1, moment_1),
                    second.step(dt, rate_2, moment_2),
                ];
            });
            StepTimes {
                reference: reference / per,
                live: live / per,
                byte_run: byte_run / per,
            }
        })
        .collect();
    let written: Vec<u32> = (0..2 * calls.len())
        .map(|place| word_at(&output[two_axis::REPORT_LEN..], place))
        .collect();
    assert_eq!(bits(ours.as_flattened()), written, "the offsets differ");
    assert_eq!(bits(theirs.as_flattened()), written, "the offsets differ");
    times
}

/// The live step beside the Rust's own, and over the byte run's.
fn step_lines(what: &str, times: &[StepTimes]) {
    let pairs: Vec<(f64, f64)> = times
        .iter()
        .map(|time| (time.reference, time.live))
        .collect();
    line(what, &pairs, 1e9, "ns");
    println!(
        "{:<44} byte run  {:>7.2} ns, live    {:>7.2} ns, live over byte run {:.2}",
        "",
        median(times.iter().map(|time| time.byte_run * 1e9)),
        median(times.iter().map(|time| time.live * 1e9)),
        median(times.iter().map(|time| time.live / time.byte_run)),
    );
}

/// The reports of `count` done models, with poles from 0 to 1.
fn reports(count: usize) -> Vec<u8> {
    let mut random = Noise(1);
    let mut bytes = Vec::with_capacity(36 * count);
    for _ in 0..count {
        let pole = 0.5 + 0.5 * random.next();
        bytes.extend([0x40; 12]);
        for value in [1.0 + pole, -pole, 0.01, 0.01, 0.0, DT_S] {
            bytes.extend(value.to_bits().to_be_bytes());
        }
    }
    bytes
}

/// Both times of the plain units of all reports in s, one pair a repetition; the outputs are
/// compared.
fn units_times(reports: &[u8], library: PlainUnits, repetitions: usize) -> Vec<(f64, f64)> {
    let mut outputs = [(); 2].map(|()| vec![0; reports.len() / 3]);
    let [ours, theirs] = &mut outputs;
    let time = |units: PlainUnits, output: &mut [u8]| {
        let start = Instant::now();
        for (report, output) in reports.chunks_exact(36).zip(output.chunks_exact_mut(12)) {
            black_box(units(black_box(report), output));
        }
        start.elapsed().as_secs_f64()
    };
    let pairs = (0..repetitions)
        .map(|_| {
            let library = time(library, ours);
            (time(plain_units, theirs), library)
        })
        .collect();
    assert_eq!(ours, theirs, "the outputs differ");
    pairs
}

fn line(what: &str, pairs: &[(f64, f64)], per: f64, unit: &str) {
    println!(
        "{what:<44} reference {:>7.2} {unit}, library {:>7.2} {unit}, ratio {:.2}",
        median(pairs.iter().map(|(reference, _)| reference * per)),
        median(pairs.iter().map(|(_, library)| library * per)),
        median(pairs.iter().map(|(reference, library)| reference / library)),
    );
}

/// A run of `ticks` calls that ends with its last one.
fn ending(ticks: usize, noise: f32) -> Run {
    Run::new(ticks, (ticks as f32 - 0.5) * DT_S, noise)
}

fn main() -> ExitCode {
    let (Some(library), Some(units), Some(live), Some(two_axis_run), Some(live_pair)) = (
        library::BYTE_RUN,
        library::PLAIN_UNITS,
        library::LIVE,
        library::TWO_AXIS_RUN,
        library::LIVE_PAIR,
    ) else {
        eprintln!("bench: set IDENTIFY_LIB to the static library and build again (host/README.md)");
        return ExitCode::from(2);
    };
    for ticks in [256, 512, 1_024, 2_048] {
        let noisy = times(&ending(ticks, 0.1), library, 51);
        line(
            &format!("noisy run of {ticks} ticks, integrated fit"),
            &noisy,
            1e3,
            "ms",
        );
    }
    for ticks in [256, 512, 1_024, 2_048] {
        let quiet = times(&ending(ticks, 0.0), library, 501);
        line(
            &format!("quiet run of {ticks} ticks, recorded fit"),
            &quiet,
            1e6,
            "us",
        );
    }
    let running = Run::new(200_000, 3_600.0, 0.1);
    let step = times(&running, library, 51);
    line(
        "a step while running, of 200,000",
        &step,
        1e9 / running.calls() as f64,
        "ns",
    );
    step_lines(
        "a live step while running, of 200,000",
        &step_times(&running, library, live, 51),
    );
    let full = Run::new(2_048, 3_600.0, 0.1);
    step_lines(
        "a live step while storing, of 2,048",
        &step_times(&full, library, live, 501),
    );
    step_lines(
        "a two-axis step while running, of 200,000",
        &two_axis_times(&running, two_axis_run, live_pair, 51),
    );
    step_lines(
        "a two-axis step while storing, of 2,048",
        &two_axis_times(&full, two_axis_run, live_pair, 501),
    );
    let count = 10_000;
    line(
        "plain units of a report, of 10,000",
        &units_times(&reports(count), units, 501),
        1e9 / count as f64,
        "ns",
    );
    ExitCode::SUCCESS
}
