//! A made-up flight: an airframe whose rate integrates its moment through a lag and a delay,
//! and a controller that closes the loop on the setpoint, moved by the reference's sweep.

use reference::access::Sweep;

use crate::random::Random;
use crate::{Call, Config};

/// The airframe, its controller and its gyro.
#[derive(Clone, Debug)]
pub struct Airframe {
    /// The delay's step, 0 to 19: 1, 1½, 2 ... ticks.
    pub step: usize,
    /// The lag's pole, 0 to below 1.
    pub pole: f64,
    /// The rate's change per tick and unit of lagged moment, in rad/s.
    pub gain: f64,
    /// The rate's change per tick with no moment.
    pub trim: f64,
    /// The gyro noise's spread, in rad/s.
    pub noise: f64,
    /// The controller's moment per rad/s of error.
    pub controller: f64,
    /// The spread of a random moment added to the controller's.
    pub dither: f64,
    /// The moment's limit.
    pub limit: f64,
}

impl Airframe {
    /// An airframe at a delay's step, whose loop is stable, with no gyro noise.
    pub fn random(random: &mut Random, step: usize) -> Airframe {
        let pole = match random.below(4) {
            0 => 0.0,
            1 => random.range(0.0, 0.5),
            _ => random.range(0.3, 0.95),
        };
        let gain = random.scaled(0.01, 0.6);
        // Ticks of delay and lag that the loop has to live with.
        let slowness = step as f64 / 2.0 + 1.0 + 1.0 / (1.0 - pole);
        let controller = random.range(0.1, 0.6) / (gain * slowness);
        let reversed = if random.once_in(12) { -1.0 } else { 1.0 };
        Airframe {
            step,
            pole,
            gain: reversed * gain,
            trim: if random.once_in(3) {
                random.range(-0.2, 0.2) * gain
            } else {
                0.0
            },
            noise: 0.0,
            controller: reversed * controller,
            dither: random.pick(&[0.0, 0.01, 0.05, 0.2]),
            limit: 1.0,
        }
    }

    /// The calls of a flight of `ticks` ticks. `dt` gives each tick's length.
    pub fn fly(
        &self,
        random: &mut Random,
        config: &Config,
        ticks: usize,
        mut dt: impl FnMut(&mut Random) -> f32,
    ) -> Vec<Call> {
        let mut sweep = Sweep::new(config.amplitude, config.washout_tc_s);
        let (mut elapsed, mut rate) = (0.0f32, 0.0f64);
        // Lagged moments, newest last, from long before the start.
        let mut lagged = vec![0.0f64; 12];
        let mut moment = 0.0f64;
        let delay = self.step / 2 + 1;
        let (now, next) = if self.step % 2 == 1 {
            (0.5, 0.5)
        } else {
            (1.0, 0.0)
        };
        let mut calls = Vec::with_capacity(ticks);
        for _ in 0..ticks {
            let dt = dt(random);
            lagged.push(self.pole * lagged[lagged.len() - 1] + (1.0 - self.pole) * moment);
            let felt = lagged.len() - delay;
            rate += self.gain * (now * lagged[felt] + next * lagged[felt - 1]) + self.trim;
            let measured = rate + self.noise * random.normal();
            calls.push(Call {
                dt,
                rate: measured as f32,
                moment: moment as f32,
            });
            elapsed += dt;
            if config.extended() && elapsed >= config.duration_s {
                sweep.amplitude = config.extension_amplitude;
            }
            let offset = f64::from(sweep.next(dt, elapsed));
            let wanted = self.controller * (offset - measured) + self.dither * random.normal();
            moment = wanted.clamp(-self.limit, self.limit);
        }
        calls
    }
}
