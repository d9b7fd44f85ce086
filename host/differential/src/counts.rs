//! What a run has seen.

use std::collections::BTreeMap;

use reference::checked::{Answer, Ending};

use crate::compare::{Compared, Input};
use crate::lag::Lag;
use crate::live::{Flight, turned_back};

/// What a run of lists counts.
pub trait Tally {
    fn add(&mut self, family: &'static str, input: &Input, both: &Compared);

    /// What has been done of `all` lists.
    fn progress(&self, all: u64) -> String;

    fn print(&self);
}

#[derive(Default)]
pub struct Counts {
    lists: u64,
    calls: u64,
    families: BTreeMap<&'static str, BTreeMap<Ending, u64>>,
    half_ticks_recorded: BTreeMap<usize, u64>,
    half_ticks_integrated: BTreeMap<usize, u64>,
    /// Half ticks that a reader of the moment weights gets wrong: one who takes equal ones for a
    /// half, and one who asks for an integrated fit and weights that are not 0 too.
    misread: [u64; 2],
    lags_recorded: BTreeMap<Lag, u64>,
    lags_integrated: BTreeMap<Lag, u64>,
    rounds: BTreeMap<u32, u64>,
    turned_back: [u64; 3],
    extended: u64,
    flights: Flights,
}

impl Tally for Counts {
    fn add(&mut self, family: &'static str, input: &Input, both: &Compared) {
        for answer in &both.axes {
            self.add_answer(family, input.count(), answer);
        }
        self.flights.add(input, both);
    }

    fn progress(&self, all: u64) -> String {
        let (lists, integrated) = (self.lists, self.integrated());
        format!("{lists} of {all} lists, {integrated} integrated")
    }

    fn print(&self) {
        self.print_all();
    }
}

impl Counts {
    fn add_answer(&mut self, family: &'static str, calls: usize, answer: &Answer) {
        self.lists += 1;
        self.calls += calls as u64;
        *self
            .families
            .entry(family)
            .or_default()
            .entry(answer.ending)
            .or_default() += 1;
        if let Some(half_ticks) = answer.half_ticks {
            let (delays, lags) = if answer.ending.integrated() {
                (&mut self.half_ticks_integrated, &mut self.lags_integrated)
            } else {
                (&mut self.half_ticks_recorded, &mut self.lags_recorded)
            };
            *delays.entry(half_ticks).or_default() += 1;
            *lags.entry(Lag::of(answer.units)).or_default() += 1;
            let [m0, m1, _] = answer.moment_weights.expect("a done probe has weights");
            let readings = [
                m0 == m1,
                m0 == m1 && m0 != 0.0 && answer.ending.integrated(),
            ];
            for (count, reading) in self.misread.iter_mut().zip(readings) {
                *count += u64::from(reading != (half_ticks % 2 == 1));
            }
        }
        if answer.gain_fits > 0 && answer.half_ticks.is_some() {
            *self
                .rounds
                .entry((answer.gain_fits - 2580) / 2)
                .or_default() += 1;
        }
        for (sum, count) in self.turned_back.iter_mut().zip(answer.turned_back) {
            *sum += u64::from(count);
        }
        self.extended += u64::from(answer.extended);
    }

    fn integrated(&self) -> u64 {
        let endings = self.families.values().flatten();
        endings
            .filter(|(ending, _)| ending.integrated())
            .map(|(_, count)| count)
            .sum()
    }

    /// The table, families down and endings across, then the rest.
    fn print_all(&self) {
        println!("lists per family and ending:");
        for (family, endings) in &self.families {
            let total: u64 = endings.values().sum();
            let parts: Vec<String> = endings
                .iter()
                .map(|(ending, count)| format!("{} {count}", ending.name()))
                .collect();
            println!("  {family:<28} {total:>8}  {}", parts.join("; "));
        }
        println!("lists per ending:");
        for ending in Ending::ALL {
            let count: u64 = self
                .families
                .values()
                .filter_map(|endings| endings.get(&ending))
                .sum();
            println!("  {:<28} {count:>8}", ending.name());
        }
        println!("delays seen, in half ticks: lists");
        println!("  recorded   {}", pairs(&self.half_ticks_recorded));
        println!("  integrated {}", pairs(&self.half_ticks_integrated));
        let [alike, halves] = self.misread;
        println!("half ticks that the moment weights tell otherwise: lists");
        println!(
            "  equal ones taken for a half {alike}, those of an integrated fit and not 0 {halves}"
        );
        println!("lags of done reports: lists");
        println!("  recorded   {}", pairs(&self.lags_recorded));
        println!("  integrated {}", pairs(&self.lags_integrated));
        println!("rounds of the refinement: lists\n  {}", pairs(&self.rounds));
        let [six, seven, eight] = self.turned_back;
        println!("calls turned back: {six} by 6, {seven} by 7, {eight} by 8");
        println!("lists that went on into an extension: {}", self.extended);
        println!(
            "lists that entered the integrated fit: {}",
            self.integrated()
        );
        println!("{} lists, {} calls", self.lists, self.calls);
        self.flights.print();
    }
}

/// The flights with the live functions.
#[derive(Default)]
pub struct Flights {
    /// Opened, refused too.
    flights: u64,
    /// Their calls, those turned back, and looks at report and status.
    flown: [u64; 3],
}

impl Flights {
    pub fn add(&mut self, input: &Input, both: &Compared) {
        let Some(Flight { words, looks, .. }) = &both.found.flight else {
            return;
        };
        self.flights += 1;
        let calls = words.iter().step_by(input.axes.count());
        let back = calls.clone().filter(|word| turned_back(**word));
        let counts = [calls.len(), back.count(), looks.len()];
        for (sum, count) in self.flown.iter_mut().zip(counts) {
            *sum += count as u64;
        }
    }

    pub fn print(&self) {
        let [calls, back, looks] = self.flown;
        println!(
            "live: {} lists flown, {calls} calls compared, {back} of them turned back with the probe as it \
             was, {looks} reports and statuses",
            self.flights
        );
    }
}

/// Counts by what is counted, on one line.
pub fn pairs<T: std::fmt::Display>(counts: &BTreeMap<T, u64>) -> String {
    let pairs: Vec<String> = counts
        .iter()
        .map(|(key, count)| format!("{key}: {count}"))
        .collect();
    pairs.join(", ")
}
