//! Lists through the reference as it is and as it was before request four of 02.

use std::collections::BTreeMap;

use reference::access::before_four;
use reference::checked::{Answer, Ending};
use reference::plain_units::done_model;

use crate::compare::{Input, Returned, reference_run};
use crate::progress::Progress;

/// Runs the lists both ways, and prints how many answer otherwise.
pub fn count_all(all: u64, inputs: impl Iterator<Item = (&'static str, Input)>) {
    let mut progress = Progress::default();
    let mut counts = Counts::default();
    for (family, input) in inputs {
        counts.add(family, &Both::of(&input));
        progress.show(|| format!("{} of {all} lists", counts.lists));
    }
    eprintln!();
    counts.print();
    println!("{:.1} s", progress.seconds());
}

/// A list's answers, before request four and after it.
struct Both {
    before: (Answer, Returned),
    after: (Answer, Returned),
}

impl Both {
    fn of(input: &Input) -> Both {
        Both {
            before: before_four(|| reference_run(input)),
            after: reference_run(input),
        }
    }

    /// Whether the return value or any byte of the output is another.
    fn differ(&self) -> bool {
        self.before.1 != self.after.1
    }

    fn endings(&self) -> (Ending, Ending) {
        (self.before.0.ending, self.after.0.ending)
    }
}

/// Whether a report of a probe done by the integrated fit holds a number that is not finite.
pub fn not_finite((answer, run): &(Answer, Returned)) -> bool {
    if !answer.ending.done_by_integrated() {
        return false;
    }
    let model = done_model(&run.output).expect("the report of a done probe");
    let weights = model.rate_weights.iter().chain(&model.moment_weights);
    weights
        .chain([&model.dt_s])
        .any(|value| !float::is_finite(*value))
}

/// What a run has seen.
#[derive(Default)]
struct Counts {
    lists: u64,
    otherwise: u64,
    /// All lists, and those that answer otherwise.
    families: BTreeMap<&'static str, [u64; 2]>,
    /// Of the lists that answer otherwise.
    endings: BTreeMap<(Ending, Ending), u64>,
    /// Before and after.
    not_finite: [u64; 2],
    gain_fits: u64,
}

impl Counts {
    fn add(&mut self, family: &'static str, both: &Both) {
        let otherwise = u64::from(both.differ());
        self.lists += 1;
        self.otherwise += otherwise;
        let [lists, changed] = self.families.entry(family).or_default();
        *lists += 1;
        *changed += otherwise;
        if both.differ() {
            *self.endings.entry(both.endings()).or_default() += 1;
        }
        for (count, one) in self.not_finite.iter_mut().zip([&both.before, &both.after]) {
            *count += u64::from(not_finite(one));
        }
        self.gain_fits += u64::from(both.before.0.gain_fits != both.after.0.gain_fits);
    }

    fn print(&self) {
        println!("lists that answer otherwise, of all, per family:");
        for (family, [lists, otherwise]) in &self.families {
            println!("  {family:<28} {otherwise:>8} of {lists:>8}");
        }
        println!("ending before -> ending after: lists that answer otherwise");
        for ((before, after), count) in &self.endings {
            println!("  {} -> {}: {count}", before.name(), after.name());
        }
        let [before, after] = self.not_finite;
        println!(
            "integrated models with a number that is not finite: {before} before, {after} after"
        );
        println!("lists with another number of gain fits: {}", self.gain_fits);
        println!(
            "{} of {} lists answer otherwise",
            self.otherwise, self.lists
        );
    }
}
