//! Document 01's byte run over the reference.

use crate::access::{IdentifyConfig, IdentifyExtension};
use crate::probe::{Probe, REPORT_LEN};

/// The length of a configuration, and of one call, in bytes.
pub const CONFIG_LEN: usize = 24;
pub const CALL_LEN: usize = 12;

/// The bytes that a run over `calls` calls writes.
pub fn written_len(calls: usize) -> usize {
    REPORT_LEN + 4 * calls
}

/// The byte run: 0, or the number of 1 to 5 or 9.
pub fn byte_run(config: &[u8], calls: &[u8], output: &mut [u8]) -> u32 {
    match probe_run(config, calls, output) {
        Ok(_) => 0,
        Err(number) => number,
    }
}

/// The byte run, with the probe that it leaves.
pub fn probe_run(config: &[u8], calls: &[u8], output: &mut [u8]) -> Result<Probe, u32> {
    run_by(config, calls, output, |probe, call| {
        probe.step(call.dt, call.rate, call.moment)
    })
}

/// The same with a step of one's own.
pub fn run_by(
    config: &[u8],
    calls: &[u8],
    output: &mut [u8],
    mut step: impl FnMut(&mut Probe, Call) -> Result<f32, u32>,
) -> Result<Probe, u32> {
    if !sizes_fit(config, calls, output) {
        return Err(9);
    }
    let mut probe = Probe::new(config_of(config))?;
    let offsets = &mut output[REPORT_LEN..];
    for (call, place) in calls_of(calls).zip(offsets.chunks_exact_mut(4)) {
        let bits = match step(&mut probe, call) {
            Ok(offset) => float::bits(offset),
            Err(number) => float::NAN_BITS + number,
        };
        place.copy_from_slice(&bits.to_be_bytes());
    }
    output[..REPORT_LEN].copy_from_slice(&probe.report().bytes());
    Ok(probe)
}

/// Whether the three buffers have the sizes of a byte run.
pub fn sizes_fit(config: &[u8], calls: &[u8], output: &[u8]) -> bool {
    config.len() == CONFIG_LEN
        && calls.len().is_multiple_of(CALL_LEN)
        && output.len() >= written_len(calls.len() / CALL_LEN)
}

/// The configuration in 24 bytes.
pub fn config_of(bytes: &[u8]) -> IdentifyConfig {
    let word = |place: usize| word_at(bytes, place);
    let number = |place: usize| f32::from_bits(word(place));
    IdentifyConfig {
        amplitude: number(0),
        duration_s: number(1),
        washout_tc_s: number(2),
        noisy: (word(3) != 0).then(|| IdentifyExtension {
            amplitude: number(4),
            duration_s: number(5),
        }),
    }
}

/// One call.
#[derive(Clone, Copy, Debug, PartialEq)]
pub struct Call {
    pub dt: f32,
    pub rate: f32,
    pub moment: f32,
}

/// The calls in their bytes.
pub fn calls_of(bytes: &[u8]) -> impl Iterator<Item = Call> {
    bytes.chunks_exact(CALL_LEN).map(|call| Call {
        dt: f32::from_bits(word_at(call, 0)),
        rate: f32::from_bits(word_at(call, 1)),
        moment: f32::from_bits(word_at(call, 2)),
    })
}

/// Word `place` of `bytes`.
pub fn word_at(bytes: &[u8], place: usize) -> u32 {
    let word = bytes[4 * place..4 * place + 4]
        .try_into()
        .expect("four bytes");
    u32::from_be_bytes(word)
}
