//! 02's request five: roll and pitch in one flight, as bytes and over memory that a caller keeps.

use library::{LivePair, LiveProbe};

use crate::fits::Class;
use crate::probe::{Probe, live};
use crate::{bits, number, word};

/// The byte run of two axes: 20 bytes a call, 77 bytes of report, two words a call.
pub fn two_axis_run(config: &[u8], calls: &[u8], output: &mut [u8]) -> u32 {
    let count = calls.len() / 20;
    if config.len() != 24 || calls.len() != 20 * count || output.len() < 77 + 8 * count {
        return 9;
    }
    let mut flight = match TwoAxis::configured(&std::array::from_fn(|n| word(config, n))) {
        Ok(flight) => flight,
        Err(number) => return number,
    };
    for n in 0..count {
        let call = std::array::from_fn(|field| number(&calls[20 * n..], field));
        let answers = match flight.step(call) {
            Ok(offsets) => offsets.unwrap_or([0.0; 2]).map(bits),
            Err(number) => [0x7fc0_0000 + number; 2],
        };
        let bytes = answers.map(u32::to_be_bytes).concat();
        output[77 + 8 * n..85 + 8 * n].copy_from_slice(&bytes);
    }
    output[..77].copy_from_slice(&flight.report());
    0
}

/// One flight of two axes, the second with the level opposite to the first.
struct TwoAxis {
    axes: [Probe; 2],
}

impl TwoAxis {
    /// The flight of a configuration's six words.
    fn configured(config: &[u32; 6]) -> Result<TwoAxis, u32> {
        let second = Probe::configured(config)?.starting_low();
        Ok(TwoAxis {
            axes: [Probe::configured(config)?, second],
        })
    }

    /// The elapsed times after a call of this dt, none after the end of either axis; or the number
    /// that turns it back for both.
    fn elapsed_after(&self, dt: f32) -> Result<Option<[f32; 2]>, u32> {
        let [first, second] = &self.axes;
        let elapsed = (first.elapsed_after(dt)?, second.elapsed_after(dt)?);
        Ok(match elapsed {
            (Some(first), Some(second)) => Some([first, second]),
            _ => None,
        })
    }

    /// The offsets of a call, dt and two pairs of rate and moment; none after the end.
    fn step(&mut self, call: [f32; 5]) -> Result<Option<[f32; 2]>, u32> {
        let [dt, rate_1, moment_1, rate_2, moment_2] = call;
        let Some([elapsed_1, elapsed_2]) = self.elapsed_after(dt)? else {
            return Ok(None);
        };
        let [first, second] = &mut self.axes;
        let offsets = [
            first.tick(elapsed_1, dt, rate_1, moment_1),
            second.tick(elapsed_2, dt, rate_2, moment_2),
        ];
        let (class_1, class_2) = (first.class(), second.class());
        let (asks_1, asks_2) = (asks(&class_1), asks(&class_2));
        first.close(class_1, asks_2);
        second.close(class_2, asks_1);
        Ok(Some(offsets))
    }

    /// The two reports, then ticks + ticks in 26 bits, rows + rows in 13, and a zero bit.
    fn report(&self) -> [u8; 77] {
        let [first, second] = &self.axes;
        let ((ticks_1, rows_1), (ticks_2, rows_2)) =
            (first.ticks_and_rows(), second.ticks_and_rows());
        let sums = u64::from(ticks_1 + ticks_2) << 14 | u64::from(rows_1 + rows_2) << 1;
        let mut bytes = [0; 77];
        bytes[..36].copy_from_slice(&first.report());
        bytes[36..72].copy_from_slice(&second.report());
        bytes[72..].copy_from_slice(&sums.to_be_bytes()[3..]);
        bytes
    }
}

/// Whether an axis asks the other to take the extension.
fn asks(class: &Option<Class>) -> bool {
    matches!(class, Some(Class::Integrated))
}

/// The live functions of two axes. What is read and written of each is a live probe's.
pub const LIVE_PAIR: LivePair = LivePair {
    open,
    ready,
    step,
    status: live::status,
    report,
};

fn read(parts: &[LiveProbe; 2]) -> TwoAxis {
    let [first, second] = parts;
    TwoAxis {
        axes: [live::read(first), live::read(second)],
    }
}

fn open(parts: &mut [LiveProbe; 2], config: &[u32; 6], options: u32) -> u32 {
    if options != 0 {
        return 9;
    }
    match TwoAxis::configured(config) {
        Ok(flight) => {
            for (probe, parts) in flight.axes.iter().zip(parts) {
                live::write(probe, parts);
            }
            0
        }
        Err(number) => number,
    }
}

/// Each axis's marks, where both accept the call and it reads them.
fn ready(parts: &mut [LiveProbe; 2], dt: f32) {
    let flight = read(parts);
    let Ok(Some(elapsed)) = flight.elapsed_after(dt) else {
        return;
    };
    for ((probe, parts), elapsed) in flight.axes.iter().zip(parts).zip(elapsed) {
        if !probe.goes_on(elapsed) {
            parts.make_marks_plain();
        }
    }
}

fn step(parts: &mut [LiveProbe; 2], call: [f32; 5], offsets: &mut [f32; 2]) -> u32 {
    ready(parts, call[0]);
    let mut flight = read(parts);
    let answers = match flight.step(call) {
        Ok(answers) => answers,
        Err(number) => return number,
    };
    *offsets = answers.unwrap_or([0.0; 2]);
    if answers.is_some() {
        for ((probe, parts), offset) in flight.axes.iter().zip(parts).zip(offsets) {
            live::keep(probe, *offset, parts);
        }
    }
    0
}

fn report(parts: &[LiveProbe; 2], output: &mut [u8]) {
    if let Some(front) = output.first_chunk_mut() {
        *front = read(parts).report();
    }
}
