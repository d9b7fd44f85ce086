//! Faulty live functions are found, by the lists and by memory of any bytes.

use library::{Live, LiveProbe};
use second::LIVE;

use super::found_by;
use crate::axes::{Axes, Craft};
use crate::compare::compared;
use crate::live::Part;
use crate::memory::{self, memory};
use crate::subject::{SECOND, Subject};

/// The part of the flight that shows a fault, and the calls of the smallest input found.
fn part_and_calls(live: Live) -> (Option<Part>, usize) {
    let subject = Subject { live, ..SECOND };
    let small = found_by(subject);
    let both = compared(subject, &small);
    assert_eq!(both.expected.run, both.found.run);
    (both.flights_differ_in(), small.calls.len() / 12)
}

/// The second program with a step that does something after it, by the step's answer.
macro_rules! after_step {
    ($probe:ident, $offset:ident, $number:ident, $change:block) => {
        Live {
            step: |$probe, call, $offset| {
                let $number = (LIVE.step)($probe, call, $offset);
                $change
                $number
            },
            ..LIVE
        }
    };
}

#[test]
fn two_scalars_that_change_places_are_found() {
    let live = Live {
        open: |probe, config, options| {
            let number = (LIVE.open)(probe, config, options);
            if number == 0 {
                probe.floats.swap(3, 4);
            }
            number
        },
        ..LIVE
    };
    assert_eq!(part_and_calls(live), (Some(Part::Words), 1));
}

#[test]
fn a_wrong_open_is_found() {
    let rules_before_options = Live {
        open: |probe, config, options| match (LIVE.open)(&mut probe.clone(), config, 0) {
            0 => (LIVE.open)(probe, config, options),
            number => number,
        },
        ..LIVE
    };
    let options_taken = Live {
        open: |probe, config, options| (LIVE.open)(probe, config, options & 0x7fff_ffff),
        ..LIVE
    };
    for live in [rules_before_options, options_taken] {
        assert_eq!(part_and_calls(live), (Some(Part::Opened), 0));
    }
    let kind_before_the_rules = Live {
        open: |probe, config, options| {
            probe.words[0] = 0;
            (LIVE.open)(probe, config, options)
        },
        ..LIVE
    };
    let marks_cleared = Live {
        open: |probe, config, options| {
            let number = (LIVE.open)(probe, config, options);
            if number == 0 {
                probe.held.fill(0);
            }
            number
        },
        ..LIVE
    };
    for live in [kind_before_the_rules, marks_cleared] {
        assert_eq!(part_and_calls(live), (Some(Part::Written), 0));
    }
}

#[test]
fn what_a_refused_call_writes_is_found() {
    let sample = after_step!(probe, offset, number, {
        if number != 0 {
            probe.rates[2_047] = 0.0;
        }
    });
    let ticks = after_step!(probe, offset, number, {
        probe.words[2] += u32::from(number == 7);
    });
    let zero_offset = after_step!(probe, offset, number, {
        if number != 0 {
            *offset = 0.0;
        }
    });
    for live in [sample, ticks, zero_offset] {
        assert_eq!(part_and_calls(live), (Some(Part::Written), 1));
    }
}

#[test]
fn another_number_is_found() {
    let live = Live {
        step: |probe, call, offset| match (LIVE.step)(probe, call, offset) {
            7 => 8,
            number => number,
        },
        ..LIVE
    };
    assert_eq!(part_and_calls(live), (Some(Part::Words), 1));
}

#[test]
fn a_wrong_ready_is_found() {
    let always = Live {
        ready: |probe, _| probe.make_marks_plain(),
        ..LIVE
    };
    let never = Live {
        ready: |_, _| {},
        ..LIVE
    };
    for live in [always, never] {
        assert_eq!(part_and_calls(live), (Some(Part::Written), 1));
    }
}

#[test]
fn a_wrong_status_is_found() {
    let half_for_whole = Live {
        status: |probe| {
            let mut status = (LIVE.status)(probe);
            status.numbers.swap(2, 3);
            status
        },
        ..LIVE
    };
    let no_elapsed = Live {
        status: |probe| {
            let mut status = (LIVE.status)(probe);
            status.floats[5] *= f32::from(status.numbers[0] != 0);
            status
        },
        ..LIVE
    };
    let units_of_an_abort = Live {
        status: |probe| {
            let mut status = (LIVE.status)(probe);
            status.numbers[4] = u32::from(status.numbers[0] == 2);
            status
        },
        ..LIVE
    };
    for (live, most_calls) in [
        (half_for_whole, 60),
        (no_elapsed, 1),
        (units_of_an_abort, 60),
    ] {
        let (part, calls) = part_and_calls(live);
        assert_eq!(part, Some(Part::Looks));
        assert!(calls <= most_calls, "{calls} calls");
    }
}

#[test]
fn a_report_beside_its_36_bytes_is_found() {
    let cut_short = Live {
        report: |probe, output| {
            let mut whole = [0; 36];
            (LIVE.report)(probe, &mut whole);
            for (byte, of_report) in output.iter_mut().zip(whole) {
                *byte = of_report;
            }
        },
        ..LIVE
    };
    let rest_cleared = Live {
        report: |probe, output| {
            (LIVE.report)(probe, output);
            output.iter_mut().skip(36).for_each(|byte| *byte = 0);
        },
        ..LIVE
    };
    for live in [cut_short, rest_cleared] {
        assert_eq!(part_and_calls(live), (Some(Part::Written), 0));
    }
}

#[test]
fn a_report_that_is_late_is_found() {
    let live = Live {
        report: |probe, output| {
            let mut probe = probe.clone();
            if probe.words[0] == 0 {
                probe.words[3] = 0;
            }
            (LIVE.report)(&probe, output);
        },
        ..LIVE
    };
    assert_eq!(part_and_calls(live), (Some(Part::Looks), 1));
}

#[test]
fn a_wrong_window_is_found() {
    let live = after_step!(probe, offset, number, {
        if number == 0 && probe.words[0] == 0 {
            probe.offsets[0] = *offset;
        }
    });
    let (part, calls) = part_and_calls(live);
    assert_eq!(part, Some(Part::Window));
    assert_eq!(calls, 2);
}

/// Whether memory of any bytes shows a fault, also after it is made small.
fn found_by_memory(live: Live) -> bool {
    let craft = Craft::One(live);
    let wrong = (0..2_000)
        .map(|number| memory(Axes::One, 31, number))
        .find(|memory| memory::checked(craft, memory).is_err());
    wrong.is_some_and(|wrong| memory::checked(craft, &memory::smallest(craft, wrong)).is_err())
}

/// The probe with its marks other than 1 made 0.
fn only_ones(probe: &LiveProbe) -> LiveProbe {
    let mut probe = probe.clone();
    for mark in &mut probe.held {
        *mark = u8::from(*mark == 1);
    }
    probe
}

#[test]
fn memory_of_any_bytes_shows_no_fault_in_the_second_program() {
    assert!(!found_by_memory(LIVE));
}

#[test]
fn faults_over_memory_of_any_bytes_are_found() {
    let kind_as_it_is = Live {
        status: |probe| {
            let mut status = (LIVE.status)(probe);
            status.numbers[0] = probe.words[0];
            status
        },
        ..LIVE
    };
    let ones_are_held = Live {
        report: |probe, output| (LIVE.report)(&only_ones(probe), output),
        ..LIVE
    };
    let odd_kind_refused = Live {
        step: |probe, call, offset| match probe.words[0] {
            0..=3 => (LIVE.step)(probe, call, offset),
            _ => 9,
        },
        ..LIVE
    };
    let written_when_refused = after_step!(probe, offset, number, {
        probe.words[7] ^= u32::from(number == 8);
    });
    for live in [
        kind_as_it_is,
        ones_are_held,
        odd_kind_refused,
        written_when_refused,
    ] {
        assert!(found_by_memory(live));
    }
}
