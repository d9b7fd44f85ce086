//! The reference's answer to a list, held against the account of the list.

use crate::access::{self, Class, IdentifyStatus, Samples};
use crate::account::{Account, Taken};
use crate::byte_run::{self, calls_of, config_of};
use crate::plain_units::{PlainUnits, of_model};
use crate::probe::{Probe, REPORT_LEN};
use crate::two_axis;

/// How a list ends.
#[derive(Clone, Copy, Debug, PartialEq, Eq, PartialOrd, Ord, Hash)]
pub enum Ending {
    Running,
    DoneRecorded,
    DoneIntegratedWhole,
    DoneIntegratedHalf,
    /// No delay's sums solve, or none wins.
    UnexcitedNoSolve,
    /// The integrated fit was entered and found no position, or too few samples.
    UnexcitedIntegrated,
    Saturated,
    /// By the number of 1 to 5 or 9.
    Refused(u32),
}

impl Ending {
    /// All endings that a list can have.
    pub const ALL: [Ending; 13] = [
        Ending::Running,
        Ending::DoneRecorded,
        Ending::DoneIntegratedWhole,
        Ending::DoneIntegratedHalf,
        Ending::UnexcitedNoSolve,
        Ending::UnexcitedIntegrated,
        Ending::Saturated,
        Ending::Refused(1),
        Ending::Refused(2),
        Ending::Refused(3),
        Ending::Refused(4),
        Ending::Refused(5),
        Ending::Refused(9),
    ];

    pub fn name(self) -> String {
        match self {
            Ending::Running => "running".into(),
            Ending::DoneRecorded => "done, recorded".into(),
            Ending::DoneIntegratedWhole => "done, integrated, whole".into(),
            Ending::DoneIntegratedHalf => "done, integrated, half".into(),
            Ending::UnexcitedNoSolve => "Unexcited, no solve".into(),
            Ending::UnexcitedIntegrated => "Unexcited, integrated".into(),
            Ending::Saturated => "Saturated".into(),
            Ending::Refused(number) => format!("refused {number}"),
        }
    }

    /// Whether the integrated fit was entered.
    pub fn integrated(self) -> bool {
        self.done_by_integrated() || self == Ending::UnexcitedIntegrated
    }

    /// Whether the integrated fit made the model.
    pub fn done_by_integrated(self) -> bool {
        matches!(
            self,
            Ending::DoneIntegratedWhole | Ending::DoneIntegratedHalf
        )
    }
}

/// The reference's answer to a list.
pub struct Answer {
    /// What the byte run returns.
    pub result: u32,
    pub ending: Ending,
    /// The delay of a done probe in half ticks, 2 to 21.
    pub half_ticks: Option<usize>,
    /// The three moment weights of a done probe.
    pub moment_weights: Option<[f32; 3]>,
    /// The plain units of a done probe, where its model has them.
    pub units: Option<PlainUnits>,
    /// The gain fits that an ended probe made.
    pub gain_fits: u32,
    /// How often each of 6, 7 and 8 turned a call back.
    pub turned_back: [u32; 3],
    /// Whether the extension was used and the probe went on.
    pub extended: bool,
    /// The window that the list leaves; none where it is refused.
    pub window: Option<Samples>,
}

impl Answer {
    /// That of a run that is refused.
    fn refused(result: u32) -> Answer {
        Answer {
            result,
            ending: Ending::Refused(result),
            half_ticks: None,
            moment_weights: None,
            units: None,
            gain_fits: 0,
            turned_back: [0; 3],
            extended: false,
            window: None,
        }
    }

    /// That of a probe, held against its account.
    fn of(probe: &Probe, account: &Account) -> Answer {
        let ending = ending(probe, account);
        check(probe, account);
        check_finite(probe, ending);
        let model = match probe.status() {
            IdentifyStatus::Done(model) => Some(model),
            _ => None,
        };
        let turned_back = |number| {
            account
                .turned_back
                .iter()
                .filter(move |back| **back == number)
        };
        Answer {
            result: 0,
            ending,
            half_ticks: probe.half_ticks(),
            moment_weights: model.map(|model| model.moment_weights),
            units: model.and_then(|model| of_model(&model)),
            gain_fits: probe.gain_fits(),
            turned_back: [6, 7, 8].map(|number| turned_back(number).count() as u32),
            extended: account.extended(),
            window: Some(access::samples(probe.inner())),
        }
    }
}

/// Runs the reference over a list, and panics where the account says otherwise or an integrated
/// model holds a number that is not finite.
pub fn checked_run(config: &[u8], calls: &[u8], output: &mut [u8]) -> Answer {
    let before = output.to_vec();
    match byte_run::probe_run(config, calls, output) {
        Err(result) => {
            assert!(output == before, "a refused run writes no byte");
            Answer::refused(result)
        }
        Ok(probe) => {
            let account = Account::of(&config_of(config), calls_of(calls));
            let written = byte_run::written_len(account.turned_back.len());
            check_words(&output[REPORT_LEN..written], (0, 1), &account);
            check_rest(output, &before, written);
            Answer::of(&probe, &account)
        }
    }
}

/// The reference's answer to a list of calls of two axes.
pub struct TwoAxisAnswer {
    pub result: u32,
    /// That of each axis.
    pub axes: [Answer; 2],
    /// How the first axis took the extension; the second took it in the same call.
    pub taken: Option<Taken>,
}

/// By which axis's window the extension was taken, from how the first took it.
pub fn taken_by(first: Option<Taken>) -> &'static str {
    let Some(taken) = first else {
        return "none";
    };
    match (taken.wanted, taken.asked, taken.went_on) {
        (true, false, true) => "first",
        (true, true, true) => "both",
        (false, _, true) => "second",
        (true, false, false) => "first, already reached",
        (true, true, false) => "both, already reached",
        (false, _, false) => "second, already reached",
    }
}

/// Runs the reference over a list of calls of two axes, and panics where the account of an axis says
/// otherwise.
pub fn checked_two_axis_run(config: &[u8], calls: &[u8], output: &mut [u8]) -> TwoAxisAnswer {
    let before = output.to_vec();
    match two_axis::flight_run(config, calls, output) {
        Err(result) => {
            assert!(output == before, "a refused run writes no byte");
            TwoAxisAnswer {
                result,
                axes: [(); 2].map(|()| Answer::refused(result)),
                taken: None,
            }
        }
        Ok(flight) => {
            let accounts = Account::of_two(&config_of(config), two_axis::calls_of(calls));
            let [first, second] = &accounts;
            assert_eq!(first.ended, second.ended, "both axes have ended or neither");
            assert_eq!(first.ticks, second.ticks, "ticks of both axes");
            let written = two_axis::written_len(first.turned_back.len());
            let words = &output[two_axis::REPORT_LEN..written];
            check_words(words, (0, 2), first);
            check_words(words, (1, 2), second);
            check_rest(output, &before, written);
            let [first_axis, second_axis] = flight.axes();
            TwoAxisAnswer {
                result: 0,
                axes: [
                    Answer::of(first_axis, first),
                    Answer::of(second_axis, second),
                ],
                taken: first.taken,
            }
        }
    }
}

/// Holds an output to what it was before, past what is written.
fn check_rest(output: &[u8], before: &[u8], written: usize) {
    assert!(
        output[written..] == before[written..],
        "later bytes are untouched"
    );
}

/// Holds the words of the calls, of which a call has `each`, against the numbers of the account.
fn check_words(words: &[u8], (place, each): (usize, usize), account: &Account) {
    let calls = words.chunks_exact(4 * each);
    assert_eq!(calls.len(), account.turned_back.len(), "calls");
    for (call, back) in calls.zip(&account.turned_back) {
        let number = byte_run::word_at(call, place).wrapping_sub(float::NAN_BITS);
        let answered = if (6..=8).contains(&number) { number } else { 0 };
        assert_eq!(answered, *back, "a call turned back");
    }
}

/// Holds the probe and its report against the account.
fn check(probe: &Probe, account: &Account) {
    let report = probe.report();
    assert_eq!(
        probe.is_running(),
        !account.ended,
        "probe and account have both ended or neither"
    );
    assert_eq!(report.ticks, account.ticks, "ticks");
    assert_eq!(report.stored, account.stored(), "stored");
    assert_eq!(report.held, account.held(), "held");
    let (warm, rows) = if account.ended {
        account.warm_and_rows()
    } else {
        (0, 0)
    };
    let half_ticks = probe.half_ticks().unwrap_or(0) as u32;
    assert_eq!(2 * report.delay + report.half_tick, half_ticks, "delay");
    assert_eq!(report.warm, warm, "warm");
    assert_eq!(report.rows, rows, "rows");
    if account.ended {
        assert_eq!(
            report.stored,
            report.held + warm + rows,
            "stored is held, warm and rows"
        );
    }
    let samples = access::samples(probe.inner());
    assert_eq!(
        samples.duration_s.to_bits(),
        account.duration_s.to_bits(),
        "window duration"
    );
    for (place, entry) in account.entries.iter().enumerate() {
        assert_eq!(
            samples.rates[place].to_bits(),
            entry.rate.to_bits(),
            "rate {place}"
        );
        assert_eq!(
            samples.moments[place].to_bits(),
            entry.moment.to_bits(),
            "moment {place}"
        );
        assert_eq!(samples.held[place], entry.held, "mark {place}");
    }
}

/// Holds an integrated model to finite numbers, which the tests of 02's request four make it have.
fn check_finite(probe: &Probe, ending: Ending) {
    if ending.done_by_integrated() && access::tests_of_four() {
        let floats = probe.report().floats;
        assert!(
            floats.iter().all(|value| float::is_finite(*value)),
            "an integrated model holds finite numbers only: {floats:?}"
        );
    }
}

fn ending(probe: &Probe, account: &Account) -> Ending {
    let integrated = account.class == Some(Class::Integrated);
    match probe.status() {
        IdentifyStatus::Running { .. } => Ending::Running,
        IdentifyStatus::Done(_) if !integrated => Ending::DoneRecorded,
        IdentifyStatus::Done(_) => match probe.half_ticks() {
            Some(half_ticks) if half_ticks % 2 == 1 => Ending::DoneIntegratedHalf,
            _ => Ending::DoneIntegratedWhole,
        },
        IdentifyStatus::Aborted(access::IdentifyAbort::Saturated) => Ending::Saturated,
        IdentifyStatus::Aborted(_) if integrated => Ending::UnexcitedIntegrated,
        IdentifyStatus::Aborted(_) => Ending::UnexcitedNoSolve,
    }
}

#[cfg(test)]
mod tests {
    use super::{Ending, check_finite};
    use crate::access::{IdentifyConfig, before_four};
    use crate::probe::Probe;

    /// A probe that made weights of NaN before request four: noise, and two rates further apart
    /// than f32 reaches between two held samples.
    fn with_nan_weights() -> Probe {
        let config = IdentifyConfig {
            amplitude: 1.0,
            duration_s: 10.0,
            washout_tc_s: 0.5,
            noisy: None,
        };
        let mut probe = Probe::new(config).expect("a good configuration");
        let mut state = 1u32;
        let mut unit = || {
            state = state.wrapping_mul(1_664_525).wrapping_add(1_013_904_223);
            (state >> 16) as f32 / 65_536.0 - 0.5
        };
        for tick in 0..40 {
            let (rate, moment) = match tick {
                20 | 23 => (f32::NAN, unit()),
                21 => (3e38, unit()),
                22 => (-2e38, unit()),
                _ => (unit(), unit()),
            };
            probe.step(0.25, rate, moment).expect("a good call");
        }
        probe
    }

    #[test]
    #[should_panic(expected = "finite numbers only")]
    fn a_weight_of_nan_is_found() {
        let probe = before_four(with_nan_weights);
        before_four(|| check_finite(&probe, Ending::DoneIntegratedWhole));
        check_finite(&probe, Ending::DoneRecorded);
        check_finite(&probe, Ending::DoneIntegratedWhole);
    }
}
