//! "A call turned back", "One tick, from dt to offset", "The report".

pub mod live;

use crate::bits;
use crate::fits::{Class, Model, Sample, classify, integrated, rows};

#[derive(Clone, Copy)]
struct Extension {
    pub amplitude: f32,
    pub duration: f32,
}

enum Status {
    Running,
    Done(Model),
    Unexcited,
    Saturated,
}

/// Where the loop over edges stops; no call up to 4,096 s comes to it.
const LAST_EDGE: u32 = 32_769;

pub struct Probe {
    amplitude: f32,
    end: f32,
    washout_tc: f32,
    extension: Option<Extension>,
    status: Status,
    elapsed: f32,
    ticks: u32,
    // The sweep: edge 0 at first, and high but for the second axis of two.
    edge: u32,
    high: bool,
    next_edge: f32,
    washout: f32,
    window: Vec<Sample>,
    window_duration: f32,
    gain_fits: u32,
}

/// half(i)
fn half(i: u32) -> f32 {
    if i < 9 {
        1.0 - 0.1 * i as f32
    } else {
        0.6 - 0.1 * ((i - 9) % 5) as f32
    }
}

fn finite(v: f32) -> bool {
    v.abs() < f32::INFINITY
}

impl Probe {
    /// The probe of a configuration's six words.
    pub fn configured(config: &[u32; 6]) -> Result<Probe, u32> {
        let [amplitude, duration, washout_tc, flag, rest @ ..] = *config;
        let [extension_amplitude, extension_duration] = rest.map(f32::from_bits);
        let extension = (flag != 0).then_some(Extension {
            amplitude: extension_amplitude,
            duration: extension_duration,
        });
        let [amplitude, duration, washout_tc] =
            [amplitude, duration, washout_tc].map(f32::from_bits);
        Probe::new(amplitude, duration, washout_tc, extension)
    }

    fn new(
        amplitude: f32,
        duration: f32,
        washout_tc: f32,
        extension: Option<Extension>,
    ) -> Result<Probe, u32> {
        let zero_or_not_finite = |v: f32| v == 0.0 || !finite(v);
        if zero_or_not_finite(amplitude) {
            return Err(1);
        }
        if !(duration > 0.0 && duration <= 3600.0) {
            return Err(2);
        }
        if !(washout_tc > 0.0 && finite(washout_tc)) {
            return Err(3);
        }
        if let Some(extension) = extension {
            if zero_or_not_finite(extension.amplitude) {
                return Err(4);
            }
            if !(extension.duration >= duration && extension.duration <= 3600.0) {
                return Err(5);
            }
        }
        Ok(Probe {
            amplitude,
            end: duration,
            washout_tc,
            extension,
            status: Status::Running,
            elapsed: 0.0,
            ticks: 0,
            edge: 0,
            high: true,
            next_edge: half(0),
            washout: 0.0,
            window: Vec::new(),
            window_duration: 0.0,
            gain_fits: 0,
        })
    }

    /// A fresh probe whose sweep starts low.
    pub fn starting_low(self) -> Probe {
        Probe {
            high: false,
            ..self
        }
    }

    /// The elapsed time after a call of this dt, none after the end; or the number that turns it
    /// back.
    pub fn elapsed_after(&self, dt: f32) -> Result<Option<f32>, u32> {
        if !(dt > 0.0 && finite(dt)) {
            return Err(6);
        }
        let Status::Running = self.status else {
            return Ok(None);
        };
        let elapsed = self.elapsed + dt;
        if elapsed > 4096.0 {
            return Err(7);
        }
        if self.ticks == 1 << 24 {
            return Err(8);
        }
        Ok(Some(elapsed))
    }

    pub fn step(&mut self, dt: f32, rate: f32, moment: f32) -> Result<f32, u32> {
        let Some(elapsed) = self.elapsed_after(dt)? else {
            return Ok(0.0);
        };
        let offset = self.tick(elapsed, dt, rate, moment);
        let class = self.class();
        self.close(class, false);
        Ok(offset)
    }

    /// A call up to its sample: the offset.
    pub fn tick(&mut self, elapsed: f32, dt: f32, rate: f32, moment: f32) -> f32 {
        self.elapsed = elapsed;
        self.ticks += 1;
        let offset = self.sweep(dt);
        self.store(dt, rate, moment);
        offset
    }

    fn sweep(&mut self, dt: f32) -> f32 {
        while self.elapsed >= self.next_edge && self.edge < LAST_EDGE {
            self.edge += 1;
            self.high = !self.high;
            self.next_edge += half(self.edge);
        }
        let square = if self.high { self.amplitude } else { 0.0 };
        let ratio = dt / self.washout_tc;
        let share = if ratio < 1.0 { ratio } else { 1.0 };
        self.washout += (square - self.washout) * share;
        square - self.washout
    }

    fn store(&mut self, dt: f32, rate: f32, moment: f32) {
        if self.window.len() == 2048 {
            return;
        }
        let previous = match self.window.last() {
            Some(sample) => (sample.rate, sample.moment),
            None => (0.0, 0.0),
        };
        self.window.push(Sample {
            rate: if finite(rate) { rate } else { previous.0 },
            moment: if finite(moment) { moment } else { previous.1 },
            held: !(finite(rate) && finite(moment)),
        });
        self.window_duration += dt;
    }

    /// Whether a call that brings the elapsed time here goes on.
    pub fn goes_on(&self, elapsed: f32) -> bool {
        elapsed < self.end
    }

    /// The class of the window; none before the end time.
    pub fn class(&self) -> Option<Class> {
        let due = !self.goes_on(self.elapsed);
        due.then(|| classify(&self.window, self.window_duration))
    }

    /// The end of a call: the extension is taken by an integrated window, and where another axis asks.
    pub fn close(&mut self, class: Option<Class>, asked: bool) {
        let Some(class) = class else { return };
        let takes = asked || matches!(class, Class::Integrated);
        if let Some(extension) = self.extension.take_if(|_| takes) {
            self.end = extension.duration;
            self.amplitude = extension.amplitude;
            if self.goes_on(self.elapsed) {
                return;
            }
        }
        self.status = match class {
            Class::Done(model) => Status::Done(model),
            Class::Unexcited => Status::Unexcited,
            Class::Saturated => Status::Saturated,
            Class::Integrated => {
                let (model, gain_fits) = integrated(&self.window, self.window_duration);
                self.gain_fits = gain_fits;
                model.map_or(Status::Unexcited, Status::Done)
            }
        };
    }

    /// The kind, the delay in half ticks, and the six floats of the report.
    fn model(&self) -> (u32, u32, [f32; 6]) {
        match &self.status {
            Status::Running => (0, 0, [0.0, 0.0, 0.0, 0.0, 0.0, self.elapsed]),
            Status::Done(model) => (1, model.half_ticks, model.floats),
            Status::Unexcited => (2, 0, [0.0; 6]),
            Status::Saturated => (3, 0, [0.0; 6]),
        }
    }

    /// The ticks, and the rows of an ended probe.
    pub fn ticks_and_rows(&self) -> (u32, u32) {
        let rows = match self.status {
            Status::Running => 0,
            _ => rows(&self.window).len() as u32,
        };
        (self.ticks, rows)
    }

    pub fn report(&self) -> [u8; 36] {
        let stored = self.window.len() as u32;
        let held = self.window.iter().filter(|sample| sample.held).count() as u32;
        let (ticks, rows) = self.ticks_and_rows();
        let (kind, half_ticks, floats) = self.model();
        let warm = match kind {
            0 => 0,
            _ => stored - held - rows,
        };
        let mut digits = String::new();
        let fields = [
            (kind, 2),
            (half_ticks / 2, 4),
            (half_ticks % 2, 1),
            (0, 1),
            (ticks, 25),
            (stored, 12),
            (held, 12),
            (warm, 12),
            (rows, 12),
            (self.gain_fits, 12),
            (0, 3),
        ];
        for (value, width) in fields {
            digits.push_str(&format!("{value:0width$b}"));
        }
        for value in floats {
            digits.push_str(&format!("{:032b}", bits(value)));
        }
        assert_eq!(digits.len(), 8 * 36);
        std::array::from_fn(|n| {
            u8::from_str_radix(&digits[8 * n..8 * n + 8], 2).expect("eight digits")
        })
    }
}
