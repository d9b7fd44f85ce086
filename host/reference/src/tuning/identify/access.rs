//! Access to the private parts of identify.rs, as plain values, and the notes that build.rs
//! lets it take: gain fits made, what the grid keeps, the integrated fit's step, the sums of a classification.
//! [`before_four`] leaves out the two tests that build.rs puts in for request four of 02. For request
//! five [`starting_low`] sets the first level, and [`step_extended`] moves the end time; the Rust's text
//! stays.

use std::cell::{Cell, RefCell};

use nalgebra::{SMatrix, SVector};

use super::{
    DELAY_STEPS, DelayFits, Fit, HISTORY, Integrator, LagFit, Sums, TERMS, WINDOW_CAPACITY, Window,
};
pub use super::{
    IdentifyAbort, IdentifyConfig, IdentifyExtension, IdentifyProbe, IdentifyStatus, RateModel,
};

thread_local! {
    static GAIN_FITS: Cell<u32> = const { Cell::new(0) };
    static GRID: Cell<[Option<Candidate>; DELAY_STEPS]> = const { Cell::new([None; DELAY_STEPS]) };
    static STEP: Cell<Option<usize>> = const { Cell::new(None) };
    static SUMS: RefCell<Option<DelayFits>> = const { RefCell::new(None) };
    static BEFORE_FOUR: Cell<bool> = const { Cell::new(false) };
}

/// Whether the two tests of 02's request four are made.
pub(crate) fn tests_of_four() -> bool {
    !BEFORE_FOUR.get()
}

/// Does `work` with the fits as they were before request four of 02, on this thread.
pub fn before_four<T>(work: impl FnOnce() -> T) -> T {
    let outer = BEFORE_FOUR.replace(true);
    let answer = work();
    BEFORE_FOUR.set(outer);
    answer
}

pub(super) fn count_gain_fit() {
    GAIN_FITS.set(GAIN_FITS.get() + 1);
}

/// A candidate of the grid.
#[derive(Clone, Copy, Debug, PartialEq)]
pub struct Candidate {
    pub pole: f32,
    pub low: f32,
    pub high: f32,
    pub gain: f32,
    pub residual: f32,
}

pub(super) fn note_grid(best: &[Option<LagFit>; DELAY_STEPS]) {
    GRID.set(best.map(|fit| {
        fit.map(|fit| Candidate {
            pole: fit.pole,
            low: fit.bracket[0],
            high: fit.bracket[1],
            gain: fit.gain,
            residual: fit.residual,
        })
    }));
}

/// What each step of the grid keeps of a window of more than 12 samples.
pub fn grid(samples: &Samples) -> [Option<Candidate>; DELAY_STEPS] {
    super::fit_integrated(&samples.window());
    GRID.get()
}

pub(super) fn note_step(step: usize) {
    STEP.set(Some(step));
}

pub(super) fn note_sums(fits: &DelayFits) {
    SUMS.replace(Some(fits.clone()));
}

/// What the Rust did since the notes were cleared.
#[derive(Clone, Debug, PartialEq)]
pub struct Notes {
    pub gain_fits: u32,
    /// The integrated fit's step, 0 to 19, where a position won.
    pub step: Option<usize>,
    /// The rows of the last classification, where there was one.
    pub rows: Option<usize>,
}

/// Clears the notes, does `work`, and reads them.
pub fn noted<T>(work: impl FnOnce() -> T) -> (T, Notes) {
    GAIN_FITS.set(0);
    STEP.set(None);
    SUMS.replace(None);
    let answer = work();
    let notes = Notes {
        gain_fits: GAIN_FITS.get(),
        step: STEP.get(),
        rows: SUMS.with_borrow(|sums| sums.as_ref().map(|sums| sums.rows)),
    };
    (answer, notes)
}

/// A window's contents.
#[derive(Clone, Debug, Default, PartialEq)]
pub struct Samples {
    pub rates: Vec<f32>,
    pub moments: Vec<f32>,
    pub offsets: Vec<f32>,
    pub held: Vec<bool>,
    pub duration_s: f32,
}

impl Samples {
    pub fn len(&self) -> usize {
        self.rates.len()
    }

    pub fn is_empty(&self) -> bool {
        self.rates.is_empty()
    }

    /// The window that holds these samples, written field by field.
    fn window(&self) -> Window {
        let mut window = Window::new();
        let len = self.len();
        window.rates_radps[..len].copy_from_slice(&self.rates);
        window.moments[..len].copy_from_slice(&self.moments);
        if self.offsets.len() == len {
            window.offsets[..len].copy_from_slice(&self.offsets);
        }
        window.held[..len].copy_from_slice(&self.held);
        window.len = len;
        window.duration_s = self.duration_s;
        window
    }
}

fn samples_of(window: &Window) -> Samples {
    let len = window.len;
    Samples {
        rates: window.rates_radps[..len].to_vec(),
        moments: window.moments[..len].to_vec(),
        offsets: window.offsets[..len].to_vec(),
        held: window.held[..len].to_vec(),
        duration_s: window.duration_s,
    }
}

/// A probe ready to run whose square wave starts low.
pub fn starting_low(config: IdentifyConfig) -> IdentifyProbe {
    let mut probe = IdentifyProbe::new(config);
    probe.sweep.high = false;
    probe
}

/// Whether a call would find the window integrated at the end time, with the extension unused.
pub fn wants_extension(probe: &IdentifyProbe, dt: f32, rate: f32, moment: f32) -> bool {
    let IdentifyStatus::Running { elapsed_s } = probe.status else {
        return false;
    };
    if probe.noisy.is_none() || elapsed_s + dt < probe.duration_s {
        return false;
    }
    let mut window = probe.window.clone();
    window.record(dt, rate, moment, 0.0);
    class_of(&window) == Class::Integrated
}

/// The call at the end time, with the unused extension taken whatever the window's class: the probe
/// is one of the extension's duration without an extension, and has its amplitude from then on.
pub fn step_extended(probe: &mut IdentifyProbe, dt: f32, rate: f32, moment: f32) -> f32 {
    let noisy = probe.noisy.take().expect("an unused extension");
    probe.duration_s = noisy.duration_s;
    let offset = probe.step(dt, rate, moment);
    probe.sweep.amplitude = noisy.amplitude;
    offset
}

/// The window of a probe.
pub fn samples(probe: &IdentifyProbe) -> Samples {
    samples_of(&probe.window)
}

/// How many samples a probe's window stores.
pub fn stored(probe: &IdentifyProbe) -> usize {
    probe.window.len
}

/// The held marks of a probe's window.
pub fn held_marks(probe: &IdentifyProbe) -> &[bool] {
    &probe.window.held[..probe.window.len]
}

/// The window after these (dt, rate, moment, offset), from an empty one.
pub fn recorded(ticks: &[[f32; 4]]) -> Samples {
    let mut window = Window::new();
    for &[dt, rate, moment, offset] in ticks {
        window.record(dt, rate, moment, offset);
    }
    samples_of(&window)
}

/// The most samples a window stores.
pub const CAPACITY: usize = WINDOW_CAPACITY;

/// half(index).
pub fn half_period_s(index: usize) -> f32 {
    super::half_period_s(index)
}

/// A sweep's state.
#[derive(Clone, Copy, Debug, PartialEq)]
pub struct Sweep {
    pub amplitude: f32,
    pub washout_tc_s: f32,
    pub next_edge_s: f32,
    pub edge: usize,
    pub high: bool,
    pub washout: f32,
}

impl Sweep {
    pub fn new(amplitude: f32, washout_tc_s: f32) -> Self {
        Sweep::of(super::SquareSweep::new(amplitude, washout_tc_s))
    }

    /// The offset at `elapsed_s`, `dt` after the last call.
    pub fn next(&mut self, dt: f32, elapsed_s: f32) -> f32 {
        let mut sweep = super::SquareSweep {
            amplitude: self.amplitude,
            washout_tc_s: self.washout_tc_s,
            next_edge_s: self.next_edge_s,
            edge: self.edge,
            high: self.high,
            washout: self.washout,
        };
        let offset = sweep.next(dt, elapsed_s);
        *self = Sweep::of(sweep);
        offset
    }

    fn of(sweep: super::SquareSweep) -> Self {
        Sweep {
            amplitude: sweep.amplitude,
            washout_tc_s: sweep.washout_tc_s,
            next_edge_s: sweep.next_edge_s,
            edge: sweep.edge,
            high: sweep.high,
            washout: sweep.washout,
        }
    }
}

/// What a window's classification answers.
#[derive(Clone, Copy, Debug, PartialEq)]
pub enum Class {
    Recorded(RateModel),
    Integrated,
    Unexcited,
    Saturated,
}

/// The classification of a window.
pub fn classify(samples: &Samples) -> Class {
    class_of(&samples.window())
}

fn class_of(window: &Window) -> Class {
    match super::classify(window) {
        Ok(Fit::Recorded(model)) => Class::Recorded(model),
        Ok(Fit::Integrated) => Class::Integrated,
        Err(IdentifyAbort::Unexcited) => Class::Unexcited,
        Err(IdentifyAbort::Saturated) => Class::Saturated,
    }
}

/// The recorded fit's model and residual per tick.
pub fn fit_recorded(samples: &Samples) -> Option<(RateModel, f32)> {
    super::fit_recorded(&samples.window()).map(|fit| (fit.model, fit.residual_radps))
}

/// The integrated fit's model.
pub fn fit_integrated(samples: &Samples) -> Option<RateModel> {
    super::fit_integrated(&samples.window())
}

/// One delay's sums: the normal matrix column after column, the projected terms, the squares.
#[derive(Clone, Copy, Debug, PartialEq)]
pub struct DelaySums {
    pub normal: [f32; TERMS * TERMS],
    pub projected: [f32; TERMS],
    pub target_squared: f32,
}

impl DelaySums {
    fn sums(&self) -> Sums {
        let column = |j: usize| core::array::from_fn(|i| self.normal[TERMS * j + i]);
        Sums {
            normal: SMatrix::from_columns_array(core::array::from_fn(column)),
            projected: SVector::from(self.projected),
            target_squared: self.target_squared,
        }
    }

    /// Cholesky's solution and the residual.
    pub fn solve(&self) -> Option<([f32; TERMS], f32)> {
        self.sums()
            .solve()
            .map(|(solution, residual)| (core::array::from_fn(|i| solution[i]), residual))
    }

    /// Cholesky's solution, finite or not, and the difference whose max(v, 0) is the residual.
    pub fn difference(&self) -> Option<([f32; TERMS], f32)> {
        let sums = self.sums();
        let solution = sums.normal.cholesky()?.solve(&sums.projected);
        let difference = sums.target_squared - solution.dot(&sums.projected);
        Some((core::array::from_fn(|i| solution[i]), difference))
    }
}

/// The sums of each delay over a window, delay 1 first, as its classification makes them.
pub fn recorded_sums(samples: &Samples) -> Vec<DelaySums> {
    noted(|| super::fit_recorded(&samples.window()));
    SUMS.with_borrow(|fits| {
        let fits = fits.as_ref().expect("every recorded fit solves");
        fits.sums.iter().map(delay_sums).collect()
    })
}

fn delay_sums(sums: &Sums) -> DelaySums {
    let columns = sums.normal.columns_array();
    DelaySums {
        normal: core::array::from_fn(|place| columns[place / TERMS][place % TERMS]),
        projected: core::array::from_fn(|i| sums.projected[i]),
        target_squared: sums.target_squared,
    }
}

/// Good samples of a run before its first row.
pub const WARM: usize = HISTORY - 1;

/// The tie rule: the winner's position, counted from one.
pub fn delay_to_fit(fits: &[Option<(f32, f32)>], tie_share: f32) -> Option<usize> {
    super::delay_to_fit(fits, tie_share)
}

/// One gain fit over the rates and a lagged moment: gain and residual.
pub fn fit_gain(rates: &[f32], lagged: &[f32], step: usize, carry: f64) -> Option<(f32, f32)> {
    let mut window = Window::new();
    window.rates_radps[..rates.len()].copy_from_slice(rates);
    window.len = rates.len();
    let mut accel = [0.0; WINDOW_CAPACITY];
    accel[..lagged.len()].copy_from_slice(lagged);
    let first = super::MAX_DELAY_TICKS + 1;
    super::fit_gain(
        &window,
        &accel,
        super::Delay::at(step),
        first,
        Integrator { carry },
    )
    .map(|fit| (fit.gain, fit.residual))
}

/// The poles of the grid at ticks of `dt_s`.
pub fn lag_poles(dt_s: f32) -> Vec<f32> {
    super::lag_poles(dt_s).collect()
}

/// The moments through a lag of `pole`.
pub fn lag_through(moments: &[f32], pole: f32) -> Vec<f32> {
    let mut from = [0.0; WINDOW_CAPACITY];
    from[..moments.len()].copy_from_slice(moments);
    let mut lagged = [0.0; WINDOW_CAPACITY];
    super::lag_through(&from, pole, moments.len(), &mut lagged);
    lagged[..moments.len()].to_vec()
}

/// The gain fit's carry at ticks of `dt_s`.
pub fn carry(dt_s: f32) -> f64 {
    Integrator::new(dt_s).carry
}
