//! The vector file of the plain units: reports, and the lag and acceleration of each.

use std::collections::BTreeMap;

use lists::reports::report;
use reference::checked::{Ending, checked_run};
use reference::plain_units::{UNITS_LEN, plain_units};
use reference::probe::REPORT_LEN;

use crate::file::File;

const RECORDS: usize = 4_000;
/// Reports kept of each ending.
const EACH: usize = 60;
/// Lists looked at, and the longest that is run, in calls.
const LISTS: u64 = 1_500;
const LONGEST: usize = 170;

pub fn units(seed: u64) -> File {
    let mut file = File::default();
    for (family, report) in of_lists(seed) {
        record(&mut file, family, &report);
    }
    for number in 0.. {
        if file.records() == RECORDS {
            break;
        }
        let report = report(seed, number);
        record(&mut file, report.family, &report.bytes);
    }
    file
}

fn record(file: &mut File, family: &'static str, report: &[u8]) {
    let mut output = [0; UNITS_LEN];
    assert_eq!(plain_units(report, &mut output), 0);
    file.record_of(family).bytes(report).bytes(&output);
}

/// The reports that lists leave, some of each ending, with their family.
fn of_lists(seed: u64) -> Vec<(&'static str, Vec<u8>)> {
    let mut kept: BTreeMap<Ending, usize> = BTreeMap::new();
    let mut reports = Vec::new();
    for number in 0..LISTS {
        let list = lists::list(seed, number);
        if list.calls.len() / 12 > LONGEST {
            continue;
        }
        let mut output = vec![0; list.output_len];
        let answer = checked_run(&list.config, &list.calls, &mut output);
        let count = kept.entry(answer.ending).or_default();
        if answer.result == 0 && *count < EACH {
            *count += 1;
            reports.push((list.family, output[..REPORT_LEN].to_vec()));
        }
    }
    reports
}
