//! Document 02's lag and acceleration, by the Rust's own methods, of a report's bytes.

use crate::access::RateModel;
use crate::byte_run::word_at;
use crate::probe::REPORT_LEN;

/// The bytes that the plain units take.
pub const UNITS_LEN: usize = 12;

/// A model's lag in s, and its acceleration per unit moment in rad/s².
#[derive(Clone, Copy, Debug, PartialEq)]
pub struct PlainUnits {
    pub lag_s: f32,
    pub accel_radps2: f32,
}

/// Writes 1, lag and acceleration of a report that is done and has them, else three zeros, and
/// answers 0. With other sizes than 36 and 12 bytes it answers 9 and writes nothing.
pub fn plain_units(report: &[u8], output: &mut [u8]) -> u32 {
    if report.len() != REPORT_LEN || output.len() != UNITS_LEN {
        return 9;
    }
    let words = match done_model(report).and_then(|model| of_model(&model)) {
        Some(units) => [1, float::bits(units.lag_s), float::bits(units.accel_radps2)],
        None => [0; 3],
    };
    for (place, word) in output.chunks_exact_mut(4).zip(words) {
        place.copy_from_slice(&word.to_be_bytes());
    }
    0
}

/// Both numbers of a model, or neither.
pub fn of_model(model: &RateModel) -> Option<PlainUnits> {
    let (lag_s, accel_radps2) = (model.lag_s(), model.accel_radps2());
    assert_eq!(lag_s.is_some(), accel_radps2.is_some(), "both or neither");
    Some(PlainUnits {
        lag_s: lag_s?,
        accel_radps2: accel_radps2?,
    })
}

/// The model in the 36 bytes of a done report. Its delay has no say in the plain units.
pub fn done_model(report: &[u8]) -> Option<RateModel> {
    let number = |place: usize| f32::from_bits(word_at(report, place));
    (report[0] >> 6 == 1).then(|| RateModel {
        rate_weights: [number(3), number(4)],
        moment_weights: [number(5), number(6), number(7)],
        delay_ticks: usize::from(report[0] >> 2 & 0xf),
        dt_s: number(8),
    })
}
