//! What a run of lists of two axes has seen.

use std::collections::BTreeMap;

use reference::checked::{Ending, taken_by};

use crate::compare::{Compared, Input};
use crate::counts::{Flights, Tally, pairs};

#[derive(Default)]
pub struct TwoAxisCounts {
    lists: u64,
    calls: u64,
    /// By the window of which axis the extension was taken.
    families: BTreeMap<&'static str, BTreeMap<&'static str, u64>>,
    taken: BTreeMap<&'static str, u64>,
    /// The ending of the first axis, and of the second.
    endings: BTreeMap<(Ending, Ending), u64>,
    turned_back: [u64; 3],
    flights: Flights,
}

impl Tally for TwoAxisCounts {
    fn add(&mut self, family: &'static str, input: &Input, both: &Compared) {
        self.lists += 1;
        self.calls += input.count() as u64;
        let taken = taken_by(both.taken);
        let of_family = self.families.entry(family).or_default();
        *of_family.entry(taken).or_default() += 1;
        *self.taken.entry(taken).or_default() += 1;
        let [first, second] = [&both.axes[0], &both.axes[1]];
        *self
            .endings
            .entry((first.ending, second.ending))
            .or_default() += 1;
        for (sum, count) in self.turned_back.iter_mut().zip(first.turned_back) {
            *sum += u64::from(count);
        }
        self.flights.add(input, both);
    }

    fn progress(&self, all: u64) -> String {
        format!("{} of {all} lists of two axes", self.lists)
    }

    fn print(&self) {
        println!("lists per family, and by which axis the extension was taken:");
        for (family, taken) in &self.families {
            let total: u64 = taken.values().sum();
            println!("  {family:<30} {total:>8}  {}", pairs(taken));
        }
        println!("lists by which axis the extension was taken:");
        for (taken, count) in &self.taken {
            println!("  {taken:<30} {count:>8}");
        }
        println!("lists per ending of the first axis and of the second:");
        for ((first, second), count) in &self.endings {
            println!("  {:<26} {:<26} {count:>8}", first.name(), second.name());
        }
        let [six, seven, eight] = self.turned_back;
        println!("calls turned back: {six} by 6, {seven} by 7, {eight} by 8");
        println!("{} lists, {} calls", self.lists, self.calls);
        self.flights.print();
    }
}
