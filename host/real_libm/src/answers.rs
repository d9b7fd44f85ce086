//! What the real exp and log do to the answers of lists.

use std::collections::BTreeMap;
use std::time::Instant;

use lists::List;
use reference::access::{self, IdentifyStatus, RateModel};
use reference::byte_run::probe_run;
use reference::probe::{Probe, Report};

use crate::distance::Distances;

/// What a list leaves.
struct Answer {
    report: Report,
    half_ticks: Option<usize>,
    model: Option<RateModel>,
    /// The window's mean tick, in s.
    dt_s: f32,
}

impl Answer {
    fn of(probe: &Probe) -> Answer {
        let samples = access::samples(probe.inner());
        Answer {
            report: probe.report(),
            half_ticks: probe.half_ticks(),
            model: match probe.status() {
                IdentifyStatus::Done(model) => Some(model),
                _ => None,
            },
            dt_s: samples.duration_s / samples.len().max(1) as f32,
        }
    }

    /// The lag of a done probe, where it is above 0.
    fn lag_s(&self) -> Option<f32> {
        self.model?.lag_s().filter(|lag_s| *lag_s > 0.0)
    }

    /// The delay in ticks.
    fn delay(&self) -> String {
        match self.half_ticks {
            Some(half_ticks) => format!("{}", half_ticks as f64 / 2.0),
            None => "none".to_string(),
        }
    }
}

/// The answer to a list, unless its configuration or sizes are refused.
fn answer(list: &List) -> Option<Answer> {
    let mut output = vec![0; list.output_len];
    let probe = probe_run(&list.config, &list.calls, &mut output).ok()?;
    Some(Answer::of(&probe))
}

/// Runs the lists, and prints how many answers are others with the real functions.
pub fn print(seed: u64, count: u64) {
    let start = Instant::now();
    let mut families: BTreeMap<&str, Family> = BTreeMap::new();
    let (mut lists, mut done) = (0, 0);
    let mut lags = Distances::default();
    for number in 0..count {
        let list = lists::list(seed, number);
        let Some(standin) = answer(&list) else {
            continue;
        };
        lists += 1;
        done += u32::from(standin.model.is_some());
        if standin.report.gain_fits > 0 {
            let real = libm::replaced::with_exp(real::expf, || answer(&list));
            let real = real.expect("the list is not refused");
            if standin.half_ticks != real.half_ticks {
                println!(
                    "list {number}, {}, dt {} s: delay {} with the stand-in, {} with the real exp",
                    list.family,
                    standin.dt_s,
                    standin.delay(),
                    real.delay()
                );
            }
            let family = families.entry(list.family).or_default();
            family.add(&standin, &real);
        }
        if let (Some(model), Some(lag_s)) = (standin.model, standin.lag_s()) {
            let real = libm::replaced::with_log(real::logf, || model.lag_s());
            let pole = -model.rate_weights[1];
            lags.add(pole.to_bits(), lag_s, real.expect("the pole is below 1"));
        }
    }
    println!("seed {seed}, {count} lists: {lists} not refused, {done} done");
    println!("with the real exp, of the lists that make gain fits:");
    let mut all = Family::default();
    for (name, family) in &families {
        family.print(name);
        all.join(family);
    }
    all.print("all");
    lags.print("with the real log, lags above 0 of done lists");
    println!("{:.1} s", start.elapsed().as_secs_f64());
}

/// What the real exp does to a family's lists.
#[derive(Default)]
struct Family {
    lists: u64,
    /// How many reports, kinds and delays are others.
    reports: u64,
    kinds: u64,
    delays: u64,
    /// The most ticks between two lags, where the delay is the same.
    lag_ticks: f32,
}

impl Family {
    fn add(&mut self, standin: &Answer, real: &Answer) {
        let same_delay = standin.half_ticks == real.half_ticks;
        self.join(&Family {
            lists: 1,
            reports: u64::from(standin.report.bytes() != real.report.bytes()),
            kinds: u64::from(standin.report.kind != real.report.kind),
            delays: u64::from(!same_delay),
            lag_ticks: match (standin.lag_s(), real.lag_s()) {
                (Some(lag_s), Some(real)) if same_delay => (lag_s - real).abs() / standin.dt_s,
                _ => 0.0,
            },
        });
    }

    fn join(&mut self, other: &Family) {
        self.lists += other.lists;
        self.reports += other.reports;
        self.kinds += other.kinds;
        self.delays += other.delays;
        self.lag_ticks = self.lag_ticks.max(other.lag_ticks);
    }

    fn print(&self, name: &str) {
        let Family {
            lists,
            reports,
            kinds,
            delays,
            lag_ticks,
        } = self;
        println!(
            "  {name:<28} {lists:>6} lists, {reports} reports differ, {kinds} in kind, \
             {delays} in delay; a lag of the same delay by {lag_ticks:.3} ticks at most"
        );
    }
}
