//! Prints a difference.

use crate::compare::{Compared, Input, Returned, compared};
use crate::live::{Flight, Look, Part, Status};
use crate::shrink::shrunk;
use crate::subject::Subject;

/// Bytes above which an input or an output is not printed: those of the last tick.
const LONGEST: usize = 1 << 24;

/// The smallest input found that differs too. The last tick's list is left as it is.
pub fn smallest(subject: Subject, input: Input, both: Compared) {
    if input.calls.len() > LONGEST {
        answers(subject, &both);
        return;
    }
    let input = shrunk(subject, input);
    let both = compared(subject, &input);
    println!("the smallest input found has {} calls:", input.count());
    println!("configuration {}", hex(&input.config));
    for call in input.calls.chunks(input.axes.call_len()) {
        println!("call          {}", hex(call));
    }
    println!("output length {}", input.output_len);
    println!("memory's seed {}", input.memory);
    answers(subject, &both);
}

/// The runs where they differ, else their plain units, else the flights.
fn answers(subject: Subject, both: &Compared) {
    let Compared {
        expected, found, ..
    } = both;
    if expected.run != found.run {
        returned(subject, &expected.run, &found.run);
    } else if let (Some(units), Some(found_units)) = (&expected.units, &found.units)
        && units != found_units
    {
        println!("the plain units of this report differ:");
        println!("report        {}", hex(&expected.run.output[..36]));
        returned(subject, units, found_units);
    } else if let (Some(flight), Some(found_flight)) = (&expected.flight, &found.flight) {
        println!("the live functions answer otherwise:");
        flights(flight, found_flight);
    }
}

/// The first part in which two flights differ.
fn flights(expected: &Flight, found: &Flight) {
    match expected.differs_in(found) {
        None => {}
        Some(Part::Opened) => println!(
            "open with options and without them: reference {:?}, subject {:?}",
            expected.opened, found.opened
        ),
        Some(Part::Words) => {
            let [reference, subject] = [&expected.words, &found.words];
            first(reference, subject, "word", |word| format!("{word:08X}"));
        }
        Some(Part::Looks) => first(&expected.looks, &found.looks, "look", |look| {
            let Look {
                calls,
                report,
                statuses,
            } = look;
            let status = |status: &Status| hex(&status.map(u32::to_be_bytes).concat());
            let statuses: Vec<String> = statuses.iter().map(status).collect();
            format!(
                "after {calls} calls, report {}, status {}",
                hex(report),
                statuses.join(" and ")
            )
        }),
        Some(Part::Window) => {
            let names = ["rate", "moment", "offset", "mark"];
            for (axis, windows) in expected.windows.iter().zip(&found.windows).enumerate() {
                for (name, parts) in names.iter().zip(windows.0.iter().zip(windows.1)) {
                    let what = format!("{name} of axis {}", axis + 1);
                    first(parts.0, parts.1, &what, |word| format!("{word:08X}"));
                }
            }
        }
        Some(Part::Written) => {
            for written in found.written.iter().take(40) {
                println!("bytes were written {written}");
            }
        }
    }
}

/// The first place where two lists differ.
fn first<T: PartialEq>(expected: &[T], found: &[T], what: &str, text: impl Fn(&T) -> String) {
    let all = expected.len().max(found.len());
    if let Some(place) = (0..all).find(|place| expected.get(*place) != found.get(*place)) {
        let text = |one: Option<&T>| one.map_or("none".to_string(), &text);
        println!("{what} {place}:");
        println!("reference     {}", text(expected.get(place)));
        println!("subject       {}", text(found.get(place)));
    }
}

/// Both outputs, both return values, and where bytes differ.
pub fn returned(subject: Subject, expected: &Returned, found: &Returned) {
    if expected.output.len() <= LONGEST {
        println!("reference     {}", hex(&expected.output));
        println!("subject       {}", hex(&found.output));
    }
    println!(
        "the reference returns {}, {} returns {}",
        expected.result, subject.name, found.result
    );
    let places: Vec<usize> = (0..found.output.len())
        .filter(|&place| expected.output[place] != found.output[place])
        .collect();
    let shown = &places[..places.len().min(40)];
    println!("{} bytes differ, the first at {shown:?}", places.len());
}

/// Hexadecimal, a space after every four bytes.
pub fn hex(bytes: &[u8]) -> String {
    let word = |word: &[u8]| {
        word.iter()
            .map(|byte| format!("{byte:02X}"))
            .collect::<String>()
    };
    bytes.chunks(4).map(word).collect::<Vec<_>>().join(" ")
}
