//! 02's request six over the reference: a test of each dt against the first accepted one, before the
//! Rust's own probe, or before two that fly as one.

use crate::byte_run;
use crate::probe::Probe;
use crate::two_axis::{self, TwoAxis};

/// The first accepted dt, once there is one.
#[derive(Default)]
pub struct Steady {
    first: Option<f32>,
}

impl Steady {
    /// A call of a probe that runs, or has ended. What `step` answers, or the number of the first of
    /// the rules 6, 10, 7 and 8 that the call breaks.
    pub fn step<T>(
        &mut self,
        runs: bool,
        dt: f32,
        step: impl FnOnce() -> Result<T, u32>,
    ) -> Result<T, u32> {
        if let Some(first) = self.first {
            let tested = runs && dt > 0.0 && dt.is_finite();
            if tested && (dt < 0.75 * first || dt > 1.25 * first) {
                return Err(10);
            }
        }
        let answer = step()?;
        if runs {
            self.first.get_or_insert(dt);
        }
        Ok(answer)
    }
}

/// The byte run of a probe that is opened as steady, with the probe that it leaves.
pub fn steady_run(config: &[u8], calls: &[u8], output: &mut [u8]) -> Result<Probe, u32> {
    let mut steady = Steady::default();
    byte_run::run_by(config, calls, output, |probe, call| {
        steady.step(probe.is_running(), call.dt, || {
            probe.step(call.dt, call.rate, call.moment)
        })
    })
}

/// That of two axes, with the flight that it leaves.
pub fn steady_two_axis_run(config: &[u8], calls: &[u8], output: &mut [u8]) -> Result<TwoAxis, u32> {
    let mut steady = Steady::default();
    two_axis::run_by(config, calls, output, |axes, calls| {
        steady.step(axes.is_running(), calls[0].dt, || axes.step(calls))
    })
}
