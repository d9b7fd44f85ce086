//! 02's request five over the reference: two probes of the Rust, of which the second starts low, and
//! each of which is flown alone to the end time that both have.

use crate::access::IdentifyConfig;
use crate::byte_run::{CONFIG_LEN, Call, config_of, word_at};
use crate::probe::{self, Probe};

/// The length of one call in bytes: dt, then rate and moment of each axis.
pub const CALL_LEN: usize = 20;

/// The length of a report in bytes: those of the axes, and 5.
pub const REPORT_LEN: usize = 2 * probe::REPORT_LEN + 5;

/// The bytes that a run over `calls` calls writes.
pub fn written_len(calls: usize) -> usize {
    REPORT_LEN + 8 * calls
}

/// The byte run of two axes: 0, or the number of 1 to 5 or 9.
pub fn two_axis_run(config: &[u8], calls: &[u8], output: &mut [u8]) -> u32 {
    match flight_run(config, calls, output) {
        Ok(_) => 0,
        Err(number) => number,
    }
}

/// The byte run, with the flight that it leaves.
pub fn flight_run(config: &[u8], calls: &[u8], output: &mut [u8]) -> Result<TwoAxis, u32> {
    run_by(config, calls, output, TwoAxis::step)
}

/// The same with a step of one's own.
pub fn run_by(
    config: &[u8],
    calls: &[u8],
    output: &mut [u8],
    mut step: impl FnMut(&mut TwoAxis, [Call; 2]) -> Result<[f32; 2], u32>,
) -> Result<TwoAxis, u32> {
    if !sizes_fit(config, calls, output) {
        return Err(9);
    }
    let mut flight = TwoAxis::new(config_of(config))?;
    let offsets = &mut output[REPORT_LEN..];
    for (calls, place) in calls_of(calls).zip(offsets.chunks_exact_mut(8)) {
        let words = match step(&mut flight, calls) {
            Ok(offsets) => offsets.map(float::bits),
            Err(number) => [float::NAN_BITS + number; 2],
        };
        place.copy_from_slice(&words.map(u32::to_be_bytes).concat());
    }
    output[..REPORT_LEN].copy_from_slice(&flight.report());
    Ok(flight)
}

/// Whether the three buffers have the sizes of a byte run of two axes.
fn sizes_fit(config: &[u8], calls: &[u8], output: &[u8]) -> bool {
    config.len() == CONFIG_LEN
        && calls.len().is_multiple_of(CALL_LEN)
        && output.len() >= written_len(calls.len() / CALL_LEN)
}

/// The calls in their bytes, one for each axis.
pub fn calls_of(bytes: &[u8]) -> impl Iterator<Item = [Call; 2]> {
    bytes.chunks_exact(CALL_LEN).map(|call| {
        let value = |place| f32::from_bits(word_at(call, place));
        [0, 1].map(|axis| Call {
            dt: value(0),
            rate: value(1 + 2 * axis),
            moment: value(2 + 2 * axis),
        })
    })
}

/// Two probes that take the extension together.
pub struct TwoAxis {
    axes: [Probe; 2],
}

impl TwoAxis {
    /// A flight ready to start, or the number that turns its configuration back.
    pub fn new(config: IdentifyConfig) -> Result<TwoAxis, u32> {
        Ok(TwoAxis {
            axes: [Probe::new(config)?, Probe::starting_low(config)?],
        })
    }

    /// The offsets of one call, or the number that turns it back.
    pub fn step(&mut self, calls: [Call; 2]) -> Result<[f32; 2], u32> {
        let [first, second] = &mut self.axes;
        let [of_first, of_second] = calls;
        let (by_first, by_second) = (wants(first, of_first), wants(second, of_second));
        let answers = [
            step(first, of_first, by_second && !by_first),
            step(second, of_second, by_first && !by_second),
        ];
        match answers {
            [Ok(first), Ok(second)] => Ok([first, second]),
            [Err(number), Err(other)] if number == other => Err(number),
            _ => panic!("one axis is turned back otherwise than the other: {answers:?}"),
        }
    }

    pub fn axes(&self) -> &[Probe; 2] {
        &self.axes
    }

    /// Whether both axes run; the other way both have ended.
    pub fn is_running(&self) -> bool {
        self.axes.iter().all(Probe::is_running)
    }

    /// The two reports, then ticks + ticks in 26 bits, rows + rows in 13, and a zero bit.
    pub fn report(&self) -> [u8; REPORT_LEN] {
        let [first, second] = self.axes.each_ref().map(Probe::report);
        let (ticks, rows) = (first.ticks + second.ticks, first.rows + second.rows);
        assert!(ticks >> 26 == 0 && rows >> 13 == 0, "{ticks} and {rows}");
        let sums = (u64::from(ticks) << 13 | u64::from(rows)) << 1;
        let mut bytes = [0; REPORT_LEN];
        let (reports, rest) = bytes.split_at_mut(2 * probe::REPORT_LEN);
        reports.copy_from_slice(&[first.bytes(), second.bytes()].concat());
        rest.copy_from_slice(&sums.to_be_bytes()[3..]);
        bytes
    }
}

/// Whether an axis takes the extension by itself at this call, and so both.
fn wants(axis: &Probe, call: Call) -> bool {
    axis.wants_extension(call.dt, call.rate, call.moment)
}

/// A call of one axis; `asked` where the other alone wants the extension.
fn step(axis: &mut Probe, call: Call, asked: bool) -> Result<f32, u32> {
    let step = if asked {
        Probe::step_asked
    } else {
        Probe::step
    };
    step(axis, call.dt, call.rate, call.moment)
}
