//! A probe that its caller keeps in parts: read whole before each call, and its scalars and the new
//! sample written after it.

use library::{Live, LiveProbe, LiveStatus, WINDOW};

use super::{Extension, Probe, Status};
use crate::fits::{Model, Sample};
use crate::{number, plain_units, word};

pub const LIVE: Live = Live {
    open,
    ready,
    step,
    status,
    report,
};

fn open(parts: &mut LiveProbe, config: &[u32; 6], options: u32) -> u32 {
    if options != 0 {
        return 9;
    }
    match Probe::configured(config) {
        Ok(probe) => {
            write(&probe, parts);
            0
        }
        Err(number) => number,
    }
}

fn ready(parts: &mut LiveProbe, dt: f32) {
    ready_for(&read(parts), parts, dt);
}

/// `ready` of the probe that was read.
fn ready_for(probe: &Probe, parts: &mut LiveProbe, dt: f32) {
    if let Ok(Some(elapsed)) = probe.elapsed_after(dt)
        && !probe.goes_on(elapsed)
    {
        parts.make_marks_plain();
    }
}

fn step(parts: &mut LiveProbe, [dt, rate, moment]: [f32; 3], offset: &mut f32) -> u32 {
    let mut probe = read(parts);
    ready_for(&probe, parts, dt);
    let ran = matches!(probe.status, Status::Running);
    match probe.step(dt, rate, moment) {
        Ok(answer) => *offset = answer,
        Err(number) => return number,
    }
    if ran {
        keep(&probe, *offset, parts);
    }
    0
}

/// Writes the scalars of a probe after a call, and the sample that the parts do not have yet.
pub fn keep(probe: &Probe, offset: f32, parts: &mut LiveProbe) {
    let before = stored(parts);
    if let Some(sample) = probe.window.get(before) {
        parts.rates[before] = sample.rate;
        parts.moments[before] = sample.moment;
        parts.offsets[before] = offset;
        parts.held[before] = u8::from(sample.held);
    }
    write(probe, parts);
}

pub fn status(parts: &LiveProbe) -> LiveStatus {
    let probe = read(parts);
    let (kind, half_ticks, floats) = probe.model();
    let mut units = [0; 12];
    plain_units(&probe.report(), &mut units);
    LiveStatus {
        numbers: [
            kind,
            half_ticks,
            half_ticks / 2,
            half_ticks % 2,
            word(&units, 0),
        ],
        floats,
        plain: [number(&units, 1), number(&units, 2)],
    }
}

fn report(parts: &LiveProbe, output: &mut [u8]) {
    if let Some(front) = output.first_chunk_mut() {
        *front = read(parts).report();
    }
}

fn stored(parts: &LiveProbe) -> usize {
    WINDOW.min(parts.words[3] as usize)
}

/// The probe in its parts. What no probe has is taken for the nearest that one has.
pub fn read(parts: &LiveProbe) -> Probe {
    let [kind, half_ticks, ticks, _, gain_fits, extension, edge, high] = parts.words;
    let [
        end,
        amplitude_then,
        end_then,
        amplitude,
        washout_tc,
        next_edge,
        washout,
        window_duration,
        floats @ ..,
    ] = parts.floats;
    Probe {
        amplitude,
        end,
        washout_tc,
        extension: (extension != 0).then_some(Extension {
            amplitude: amplitude_then,
            duration: end_then,
        }),
        status: match kind {
            0 => Status::Running,
            1 => Status::Done(Model {
                half_ticks: half_ticks.min(21),
                floats,
            }),
            2 => Status::Unexcited,
            _ => Status::Saturated,
        },
        elapsed: floats[5],
        ticks: ticks.min(1 << 24),
        edge,
        high: high != 0,
        next_edge: next_edge.max(0.0),
        washout,
        window: (0..stored(parts))
            .map(|place| Sample {
                rate: parts.rates[place],
                moment: parts.moments[place],
                held: parts.held[place] != 0,
            })
            .collect(),
        window_duration,
        gain_fits: gain_fits.min(2_604),
    }
}

/// Writes the scalars of a probe.
pub fn write(probe: &Probe, parts: &mut LiveProbe) {
    let extension = probe.extension.unwrap_or(Extension {
        amplitude: 0.0,
        duration: 0.0,
    });
    let (kind, half_ticks, [r1, r2, m0, m1, m2, dt_s]) = probe.model();
    parts.words = [
        kind,
        half_ticks,
        probe.ticks,
        probe.window.len() as u32,
        probe.gain_fits,
        u32::from(probe.extension.is_some()),
        probe.edge,
        u32::from(probe.high),
    ];
    parts.floats = [
        probe.end,
        extension.amplitude,
        extension.duration,
        probe.amplitude,
        probe.washout_tc,
        probe.next_edge,
        probe.washout,
        probe.window_duration,
        r1,
        r2,
        m0,
        m1,
        m2,
        dt_s,
    ];
}
