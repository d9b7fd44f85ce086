//! Document 02's request four over the reference: what is no fit any more, what stays one, and the
//! switch to the fits before it.

use reference::access::{self, DelaySums, before_four};
use reference::checked::{Answer, Ending, checked_run};

const MAX: f32 = f32::MAX;
const INFINITY: f32 = f32::INFINITY;

/// Sums of the unit matrix, so that the solution is `projected`: one entry alone is not 0.
fn sums(projected: f32, target_squared: f32) -> DelaySums {
    DelaySums {
        normal: std::array::from_fn(|place| if place % 7 == 0 { 1.0 } else { 0.0 }),
        projected: [projected, 0.0, 0.0, 0.0, 0.0, 0.0],
        target_squared,
    }
}

/// The difference and the residual, now and before request four.
fn solved(sums: &DelaySums) -> (f32, Option<f32>, Option<f32>) {
    let residual = || sums.solve().map(|(_, residual)| residual);
    let (_, difference) = sums.difference().expect("the unit matrix has a factor");
    (difference, residual(), before_four(residual))
}

#[test]
fn a_recorded_difference_of_nan_is_no_fit() {
    // 2e19 squared is beyond f32.
    let (difference, now, before) = solved(&sums(2e19, INFINITY));
    assert!(difference.is_nan());
    assert_eq!((now, before), (None, Some(0.0)));
}

#[test]
fn a_recorded_difference_of_minus_infinity_stays_a_fit() {
    for squares in [0.0, 1.0, MAX] {
        let fit = Some(0.0);
        assert_eq!(solved(&sums(2e19, squares)), (-INFINITY, fit, fit));
    }
}

#[test]
fn a_recorded_difference_of_infinity_is_no_fit_as_before() {
    assert_eq!(solved(&sums(1.0, INFINITY)), (INFINITY, None, None));
}

/// A gain fit over 14 rates, whose last `change` meets a moment of `moment`: now and before.
fn gain_fit(change: f32, moment: f32) -> [Option<(f32, f32)>; 2] {
    let mut rates = [0.0; 14];
    let mut lagged = [0.0; 14];
    (rates[12], rates[13]) = (change, 0.0);
    lagged[12] = moment;
    let fit = || access::fit_gain(&rates, &lagged, 0, 0.5);
    [fit(), before_four(fit)]
}

#[test]
fn a_gain_that_is_not_finite_is_no_fit() {
    let [now, before] = gain_fit(1e30, 1e-20);
    assert_eq!(now, None);
    assert_eq!(before.expect("a fit").0, INFINITY);
    let [now, before] = gain_fit(-1e30, 1e-20);
    assert_eq!(now, None);
    assert_eq!(before.expect("a fit").0, -INFINITY);
}

#[test]
fn a_gain_fit_with_an_infinite_residual_stays_a_fit() {
    let [now, before] = gain_fit(1e30, 1.0);
    assert_eq!(now, before);
    let (gain, residual) = now.expect("a fit");
    assert!(gain.is_finite() && residual == INFINITY);
}

/// A byte run over calls of a quarter of a second, which ends at the last.
struct Run {
    answer: Answer,
    output: Vec<u8>,
}

impl Run {
    fn over(readings: &[(f32, f32)]) -> Run {
        let config = [1.0, 0.25 * readings.len() as f32, 0.5, 0.0, 0.0, 0.0];
        let calls = readings
            .iter()
            .flat_map(|&(rate, moment)| [0.25, rate, moment]);
        let mut output = vec![0xa5; 36 + 4 * readings.len()];
        let answer = checked_run(&bytes(config), &bytes(calls), &mut output);
        Run { answer, output }
    }

    /// Word `place` of the report.
    fn word(&self, place: usize) -> u32 {
        let word = self.output[4 * place..4 * place + 4].try_into();
        u32::from_be_bytes(word.expect("four bytes"))
    }

    /// The six floats of the report, as bits.
    fn floats(&self) -> [u32; 6] {
        std::array::from_fn(|place| self.word(3 + place))
    }
}

fn bytes(values: impl IntoIterator<Item = f32>) -> Vec<u8> {
    let words = values
        .into_iter()
        .map(|value| value.to_bits().to_be_bytes());
    words.flatten().collect()
}

/// Noisy readings: rates from -1 to 1 and moments from -0.5 to 0.5.
fn noisy(ticks: usize) -> Vec<(f32, f32)> {
    let mut state = 1u32;
    let mut unit = || {
        state = state.wrapping_mul(1_664_525).wrapping_add(1_013_904_223);
        (state >> 16) as f32 / 32_768.0 - 1.0
    };
    (0..ticks).map(|_| (unit(), 0.5 * unit())).collect()
}

/// Noisy readings with two rates further apart than f32 reaches, between two held samples.
fn wild() -> Vec<(f32, f32)> {
    let mut readings = noisy(60);
    readings[30].1 = f32::NAN;
    (readings[31].0, readings[32].0) = (3e38, -2e38);
    readings[33].1 = f32::NAN;
    readings
}

#[test]
fn a_wild_stretch_between_held_samples_makes_no_nan_weights() {
    let before = before_four(|| Run::over(&wild()));
    assert_eq!(before.answer.ending, Ending::DoneIntegratedWhole);
    assert_eq!(before.floats()[2], 0x7fc0_0000, "the first moment weight");
    let now = Run::over(&wild());
    assert_eq!(now.answer.ending, Ending::UnexcitedIntegrated);
    assert_eq!(now.floats(), [0; 6]);
    assert_eq!(now.answer.gain_fits, 2_580, "each gain fit counts one");
}

#[test]
fn ordinary_readings_answer_as_before() {
    let now = Run::over(&noisy(60));
    assert!(now.answer.ending.done_by_integrated());
    assert_eq!(now.output, before_four(|| Run::over(&noisy(60))).output);
}

#[test]
fn the_switch_ends_with_its_work() {
    let fits = || sums(2e19, INFINITY).solve().is_some();
    assert!(!fits());
    before_four(|| {
        assert!(fits());
        before_four(|| assert!(fits()));
        assert!(fits(), "still before");
    });
    assert!(!fits());
}

/// Twelve readings and one row, whose squares and solution at delay 1 are finite, and whose dot of
/// solution and projected terms overflows. Fewer readings make no row.
fn twelve() -> Vec<(f32, f32)> {
    let last = [
        [0x3780_0000, 0x3d00_0000],
        [0x9a10_0000, 0x3ee0_0000],
        [0x5f40_0000, 0x3e90_0000],
    ];
    let last = last.map(|reading| reading.map(f32::from_bits));
    let mut readings = vec![(0.0, 0.0); 9];
    readings.extend(last.map(|[rate, moment]| (rate, moment)));
    readings
}

#[test]
fn a_difference_of_minus_infinity_in_twelve_readings() {
    let ticks = twelve().into_iter();
    let ticks: Vec<[f32; 4]> = ticks
        .map(|(rate, moment)| [0.25, rate, moment, 0.0])
        .collect();
    let sums = access::recorded_sums(&access::recorded(&ticks));
    let (solution, difference) = sums[0].difference().expect("a factor");
    assert_eq!(
        solution.map(f32::to_bits),
        [0x79b5_04f3, 0xe600_000c, 0xe080_0000, 0x6080_0000, 0, 0]
    );
    assert!(sums[0].target_squared.is_finite());
    assert_eq!(difference, -INFINITY);
    assert_eq!(sums[0].solve(), Some((solution, 0.0)));
    let others = &sums[1..];
    assert!(others.iter().all(|sums| sums.solve().is_none()));
}

#[test]
fn twelve_readings_end_done_by_that_fit() {
    let run = Run::over(&twelve());
    assert_eq!(run.answer.ending, Ending::DoneRecorded);
    let head = [0, 1, 2].map(|place| run.word(place));
    assert_eq!(head, [0x4400_0006, 0x0060_0000, 0x5800_8000]);
    assert_eq!(
        run.floats(),
        [
            0x79b5_04f3,
            0x6600_000c,
            0xe080_0000,
            0x6080_0000,
            0,
            0x3e80_0000
        ]
    );
    assert_eq!(run.output, before_four(|| Run::over(&twelve())).output);
}
