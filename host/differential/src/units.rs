//! Reports of any bits through the plain units of the reference and of the subjects.

use std::collections::BTreeMap;
use std::fmt;
use std::ops::Range;

use lists::reports::{Report, report, wrong_sizes};
use reference::plain_units::{UNITS_LEN, done_model, of_model, plain_units};
use reference::probe::REPORT_LEN;

use crate::compare::Returned;
use crate::lag::{Acceleration, Lag};
use crate::progress::Progress;
use crate::show;
use crate::shrink::simpler;
use crate::subject::Subject;

/// Report `number` of `seed`, with wrong sizes once in 19: over time, each family's.
pub fn input(seed: u64, number: u64) -> Report {
    if number % 19 == 18 {
        wrong_sizes(seed, number)
    } else {
        report(seed, number)
    }
}

/// What the reference and a subject return, where they differ.
pub fn difference(subject: Subject, report: &Report) -> Option<(Returned, Returned)> {
    let answer = |plain_units: library::PlainUnits| {
        Returned::by(report.output_len, |output| {
            plain_units(&report.bytes, output)
        })
    };
    let (expected, found) = (answer(plain_units), answer(subject.plain_units));
    (found != expected).then_some((expected, found))
}

/// The report with simpler words for as long as the answers to it differ.
pub fn shrunk(subject: Subject, mut report: Report) -> Report {
    for place in 0..report.bytes.len() / 4 {
        let range = 4 * place..4 * place + 4;
        let old = report.bytes[range.clone()].try_into();
        for word in simpler(u32::from_be_bytes(old.expect("four bytes"))) {
            let mut changed = report.clone();
            changed.bytes[range.clone()].copy_from_slice(&word.to_be_bytes());
            if difference(subject, &changed).is_some() {
                report = changed;
                break;
            }
        }
    }
    report
}

/// Compares on the reports `numbers` of `seed`; false at the first difference, which is printed.
pub fn compare_all(subjects: &[Subject], seed: u64, numbers: Range<u64>) -> bool {
    let all = numbers.end - numbers.start;
    let mut progress = Progress::default();
    let mut counts = Counts::default();
    for number in numbers {
        let report = input(seed, number);
        for subject in subjects {
            if difference(*subject, &report).is_some() {
                println!(
                    "\nthe answers to report {number} differ; family: {}",
                    report.family
                );
                show_smallest(*subject, report);
                return false;
            }
        }
        counts.add(&report);
        progress.show(|| format!("{} of {all} reports", counts.reports));
    }
    eprintln!();
    counts.print();
    println!("no difference; {:.1} s", progress.seconds());
    true
}

fn show_smallest(subject: Subject, report: Report) {
    let report = shrunk(subject, report);
    let (expected, found) = difference(subject, &report).expect("a report that differs");
    println!("the smallest report found:");
    println!("report        {}", show::hex(&report.bytes));
    println!("output length {}", report.output_len);
    show::returned(subject, &expected, &found);
}

/// What the plain units of a report are.
#[derive(Clone, Copy, PartialEq, Eq, PartialOrd, Ord)]
enum Outcome {
    WrongSizes,
    NotDone,
    Done(Lag),
}

impl fmt::Display for Outcome {
    fn fmt(&self, to: &mut fmt::Formatter) -> fmt::Result {
        match self {
            Outcome::WrongSizes => to.pad("9, nothing written"),
            Outcome::NotDone => to.pad("not done"),
            Outcome::Done(lag) => lag.fmt(to),
        }
    }
}

/// What a run has seen.
#[derive(Default)]
struct Counts {
    reports: u64,
    families: BTreeMap<&'static str, BTreeMap<Outcome, u64>>,
    accelerations: BTreeMap<Acceleration, u64>,
}

impl Counts {
    fn add(&mut self, report: &Report) {
        self.reports += 1;
        let outcome = self.outcome(report);
        let family = self.families.entry(report.family).or_default();
        *family.entry(outcome).or_default() += 1;
    }

    /// The reference's outcome. An ordinary dt_s never gives a lag that is NaN or below 0.
    fn outcome(&mut self, report: &Report) -> Outcome {
        if report.bytes.len() != REPORT_LEN || report.output_len != UNITS_LEN {
            return Outcome::WrongSizes;
        }
        let Some(model) = done_model(&report.bytes) else {
            return Outcome::NotDone;
        };
        let units = of_model(&model);
        if let Some(units) = units {
            let acceleration = Acceleration::of(units.accel_radps2);
            *self.accelerations.entry(acceleration).or_default() += 1;
        }
        let lag = Lag::of(units);
        let ordinary = model.dt_s > 0.0 && model.dt_s.is_finite();
        assert!(
            !(ordinary && matches!(lag, Lag::Negative | Lag::Nan)),
            "{lag} at a dt_s of {}",
            model.dt_s
        );
        Outcome::Done(lag)
    }

    /// The table, families down and outcomes across, then the outcomes and accelerations in all.
    fn print(&self) {
        println!("reports per family and outcome:");
        let mut outcomes: BTreeMap<Outcome, u64> = BTreeMap::new();
        for (family, seen) in &self.families {
            let total: u64 = seen.values().sum();
            let mut parts = Vec::new();
            for (outcome, count) in seen {
                *outcomes.entry(*outcome).or_default() += count;
                parts.push(format!("{outcome} {count}"));
            }
            println!("  {family:<28} {total:>8}  {}", parts.join("; "));
        }
        println!("reports per outcome:");
        for (outcome, count) in &outcomes {
            println!("  {outcome:<28} {count:>8}");
        }
        println!("a lag NaN or negative has a dt_s that is not positive and finite");
        println!("accelerations:");
        for (acceleration, count) in &self.accelerations {
            println!("  {acceleration:<28} {count:>8}");
        }
        println!("{} reports", self.reports);
    }
}
