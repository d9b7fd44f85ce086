//! Whole byte runs, some of each family and ending.

use std::collections::BTreeMap;
use std::fmt::Write;

use reference::checked::{Ending, checked_run};

use crate::file::File;

/// Runs kept of each family and ending.
const EACH: usize = 4;
/// Lists looked at.
const LISTS: u64 = 20_000;
/// The longest run kept, in calls, and that of the runs of more than 2,048 ticks, of which one
/// is kept for each ending.
const LONGEST: usize = 170;
const LONG_FAMILY: &str = "more than 2,048 ticks";

/// The runs, and an index of them.
pub fn runs(seed: u64) -> (File, String) {
    let mut file = File::default();
    let mut index = String::from("run\tlist\tfamily\tending\tcalls\n");
    let mut kept: BTreeMap<(&str, Ending), usize> = BTreeMap::new();
    for number in 0..LISTS {
        let list = lists::list(seed, number);
        let calls = list.calls.len() / 12;
        let long = list.family == LONG_FAMILY;
        if calls > LONGEST && !long || long && number > 1_000 {
            continue;
        }
        let mut output: Vec<u8> = (0..list.output_len).map(untouched).collect();
        let answer = checked_run(&list.config, &list.calls, &mut output);
        let count = kept.entry((list.family, answer.ending)).or_default();
        if *count == if long { 1 } else { EACH } {
            continue;
        }
        *count += 1;
        let run = file.records();
        writeln!(
            index,
            "{run}\t{number}\t{}\t{}\t{calls}",
            list.family,
            answer.ending.name()
        )
        .expect("text");
        file.record_of(list.family)
            .run(&list, answer.result, &output);
    }
    (file, index)
}

/// What byte `place` of an output holds before a run.
pub fn untouched(place: usize) -> u8 {
    (place * 31 + 0xa5) as u8
}
