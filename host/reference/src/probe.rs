//! A probe of the Rust behind document 01's refusals, with the report of 01 and 02.

use crate::access::{self, IdentifyAbort, IdentifyConfig, IdentifyProbe, IdentifyStatus};

/// The longest window, in s.
const LONGEST_S: f32 = 3600.0;
/// The latest elapsed time that a tick may reach, in s.
const LATEST_S: f32 = 4096.0;
/// The most ticks of a probe.
const MOST_TICKS: u32 = 16_777_216;

/// The length of a report in bytes.
pub const REPORT_LEN: usize = 36;

/// The number, 1 to 5, that turns a configuration back.
pub fn refused_config(config: &IdentifyConfig) -> Option<u32> {
    let amplitude_ok = |amplitude: f32| amplitude != 0.0 && amplitude.is_finite();
    if !amplitude_ok(config.amplitude) {
        return Some(1);
    }
    let duration_s = config.duration_s;
    if !(duration_s > 0.0 && duration_s.is_finite()) || duration_s > LONGEST_S {
        return Some(2);
    }
    let washout_tc_s = config.washout_tc_s;
    if !(washout_tc_s > 0.0 && washout_tc_s.is_finite()) {
        return Some(3);
    }
    let extension = config.noisy?;
    if !amplitude_ok(extension.amplitude) {
        return Some(4);
    }
    let extended_s = extension.duration_s;
    if !extended_s.is_finite() || extended_s < duration_s || extended_s > LONGEST_S {
        return Some(5);
    }
    None
}

/// A probe that turns bad calls back by number.
pub struct Probe {
    inner: IdentifyProbe,
    ticks: u32,
    gain_fits: u32,
    step: Option<usize>,
    /// The rows of the last classification.
    rows: usize,
}

impl Probe {
    /// A probe ready to run, or the number that turns its configuration back.
    pub fn new(config: IdentifyConfig) -> Result<Probe, u32> {
        Probe::around(config, IdentifyProbe::new)
    }

    /// The same with a square wave that starts low.
    pub fn starting_low(config: IdentifyConfig) -> Result<Probe, u32> {
        Probe::around(config, access::starting_low)
    }

    fn around(
        config: IdentifyConfig,
        inner: fn(IdentifyConfig) -> IdentifyProbe,
    ) -> Result<Probe, u32> {
        match refused_config(&config) {
            Some(number) => Err(number),
            None => Ok(Probe {
                inner: inner(config),
                ticks: 0,
                gain_fits: 0,
                step: None,
                rows: 0,
            }),
        }
    }

    /// Whether a call runs the probe, or the number, 6 to 8, that turns it back.
    fn runs(&self, dt: f32) -> Result<bool, u32> {
        if !(dt > 0.0 && dt.is_finite()) {
            return Err(6);
        }
        let IdentifyStatus::Running { elapsed_s } = self.inner.status() else {
            return Ok(false);
        };
        if elapsed_s + dt > LATEST_S {
            return Err(7);
        }
        if self.ticks == MOST_TICKS {
            return Err(8);
        }
        Ok(true)
    }

    /// The offset of one call, or the number, 6 to 8, that turns it back.
    pub fn step(&mut self, dt: f32, rate: f32, moment: f32) -> Result<f32, u32> {
        self.step_by(IdentifyProbe::step, dt, rate, moment)
    }

    /// The call at the end time, at which another axis asks for the extension.
    pub fn step_asked(&mut self, dt: f32, rate: f32, moment: f32) -> Result<f32, u32> {
        self.step_by(access::step_extended, dt, rate, moment)
    }

    /// Whether a call would take the extension by the probe's own window.
    pub fn wants_extension(&self, dt: f32, rate: f32, moment: f32) -> bool {
        self.runs(dt) == Ok(true) && access::wants_extension(&self.inner, dt, rate, moment)
    }

    /// A call by a step of the Rust's probe: dt, rate, moment.
    fn step_by(
        &mut self,
        step: impl Fn(&mut IdentifyProbe, f32, f32, f32) -> f32,
        dt: f32,
        rate: f32,
        moment: f32,
    ) -> Result<f32, u32> {
        if !self.runs(dt)? {
            return Ok(self.inner.step(dt, rate, moment));
        }
        let (offset, notes) = access::noted(|| step(&mut self.inner, dt, rate, moment));
        self.ticks += 1;
        self.gain_fits += notes.gain_fits;
        self.step = notes.step.or(self.step);
        self.rows = notes.rows.unwrap_or(self.rows);
        Ok(offset)
    }

    pub fn inner(&self) -> &IdentifyProbe {
        &self.inner
    }

    pub fn status(&self) -> IdentifyStatus {
        self.inner.status()
    }

    pub fn is_running(&self) -> bool {
        matches!(self.status(), IdentifyStatus::Running { .. })
    }

    pub fn ticks(&self) -> u32 {
        self.ticks
    }

    /// The gain fits made so far.
    pub fn gain_fits(&self) -> u32 {
        self.gain_fits
    }

    /// The delay of a done probe in half ticks, 2 to 21.
    pub fn half_ticks(&self) -> Option<usize> {
        match (self.status(), self.step) {
            (IdentifyStatus::Done(_), Some(step)) => Some(step + 2),
            (IdentifyStatus::Done(model), None) => Some(2 * model.delay_ticks),
            _ => None,
        }
    }

    /// The fields of the report.
    pub fn report(&self) -> Report {
        let marks = access::held_marks(&self.inner);
        let mut report = Report {
            kind: 0,
            delay: 0,
            half_tick: 0,
            ticks: self.ticks,
            stored: marks.len() as u32,
            held: marks.iter().filter(|held| **held).count() as u32,
            warm: 0,
            rows: 0,
            gain_fits: 0,
            floats: [0.0; 6],
        };
        match self.status() {
            IdentifyStatus::Running { elapsed_s } => {
                report.floats[5] = elapsed_s;
                return report;
            }
            IdentifyStatus::Done(model) => {
                let ([r1, r2], [m0, m1, m2]) = (model.rate_weights, model.moment_weights);
                report.kind = 1;
                report.delay = model.delay_ticks as u32;
                report.half_tick = self.half_ticks().unwrap_or(0) as u32 % 2;
                report.floats = [r1, r2, m0, m1, m2, model.dt_s];
            }
            IdentifyStatus::Aborted(IdentifyAbort::Unexcited) => report.kind = 2,
            IdentifyStatus::Aborted(IdentifyAbort::Saturated) => report.kind = 3,
        }
        let runs = marks.split(|held| *held);
        report.warm = runs.map(|run| run.len().min(access::WARM) as u32).sum();
        report.rows = self.rows as u32;
        report.gain_fits = self.gain_fits;
        report
    }
}

/// The fields of a report.
#[derive(Clone, Copy, Debug, PartialEq)]
pub struct Report {
    /// 0 running, 1 done, 2 Unexcited, 3 Saturated.
    pub kind: u32,
    /// Whole ticks of the delay; 0 unless done.
    pub delay: u32,
    /// 1 where the delay has half a tick more, from the step that won, never from the weights.
    pub half_tick: u32,
    pub ticks: u32,
    pub stored: u32,
    pub held: u32,
    pub warm: u32,
    pub rows: u32,
    pub gain_fits: u32,
    /// Two rate weights, three moment weights, dt_s (elapsed if running).
    pub floats: [f32; 6],
}

impl Report {
    /// The 36 bytes of the report.
    pub fn bytes(&self) -> [u8; REPORT_LEN] {
        let fields = [
            (self.kind, 2),
            (self.delay, 4),
            (self.half_tick, 1),
            (0, 1),
            (self.ticks, 25),
            (self.stored, 12),
            (self.held, 12),
            (self.warm, 12),
            (self.rows, 12),
            (self.gain_fits, 12),
            (0, 3),
        ];
        let mut head = 0u128;
        for (value, width) in fields {
            assert!(value >> width == 0, "{value} has more than {width} bits");
            head = head << width | u128::from(value);
        }
        let mut bytes = [0; REPORT_LEN];
        bytes[..12].copy_from_slice(&head.to_be_bytes()[4..]);
        for (place, value) in bytes[12..].chunks_exact_mut(4).zip(self.floats) {
            place.copy_from_slice(&float::bits(value).to_be_bytes());
        }
        bytes
    }
}
