//! Compares a subject's byte run, plain units and live functions with the reference's, on many lists
//! of calls, of one axis and of two, and on reports of any bits; and the reference with itself before
//! request four of 02.

mod axes;
mod changed;
mod compare;
mod counts;
mod exhaustive;
mod lag;
mod live;
mod memory;
mod odds;
mod progress;
mod show;
mod shrink;
mod steady;
mod subject;
#[cfg(test)]
mod tests;
mod two_axis_counts;
mod units;

use std::process::ExitCode;

use axes::Axes;
use compare::{Input, compared, families};
use counts::{Counts, Tally};
use lists::Family;
use progress::Progress;
use subject::Subject;
use two_axis_counts::TwoAxisCounts;

const USAGE: &str = "\
usage: differential [lists] [--seed S] [--count N] [--from N] [--family NAME]
       differential exhaustive
       differential last-tick
       differential two-axis [--seed S] [--count N] [--from N] [--family NAME]
       differential two-axis last-tick
       differential steady [two-axis] [--seed S] [--count N] [--from N]
       differential units [--seed S] [--count N] [--from N]
       differential changed [--seed S] [--count N] [--from N] [--family NAME]
lists       N lists of seed S, from list number --from on; of one family alone where it is named; then
            as many live probes of any bytes
exhaustive  every list of up to five calls over a small alphabet
last-tick   one list of 16,777,219 calls
two-axis    N lists of two axes, as lists does; then as many pairs of any bytes, and as many at odds
units       the plain units of N reports of any bits, from report number --from on
changed     how many lists the reference answers otherwise than before request four of document 02
All but changed take --subject library or --subject second. Without it lists go through the library
where one was linked, else through the second program, and reports through both.";

struct Options {
    what: What,
    axes: Axes,
    seed: u64,
    count: u64,
    from: u64,
    /// The name of a family.
    family: Option<String>,
    /// The one that is named.
    subject: Option<Subject>,
}

enum What {
    Lists,
    Exhaustive,
    LastTick,
    Steady,
    Units,
    Changed,
}

fn main() -> ExitCode {
    if float::HARDWARE_ROOT {
        eprintln!(
            "differential: built together with bench, with the machine's root: build it by -p"
        );
        return ExitCode::from(2);
    }
    let options = match options() {
        Ok(options) => options,
        Err(message) => {
            eprintln!("{message}");
            return ExitCode::from(2);
        }
    };
    match run(&options) {
        Ok(true) => ExitCode::SUCCESS,
        Ok(false) => ExitCode::FAILURE,
        Err(message) => {
            eprintln!("{message}");
            ExitCode::from(2)
        }
    }
}

fn options() -> Result<Options, String> {
    let mut options = Options {
        what: What::Lists,
        axes: Axes::One,
        seed: 1,
        count: 10_000,
        from: 0,
        family: None,
        subject: None,
    };
    let mut words = std::env::args().skip(1);
    while let Some(word) = words.next() {
        let mut value = || {
            words
                .next()
                .ok_or_else(|| format!("{word} needs a value\n{USAGE}"))
        };
        match word.as_str() {
            "lists" => options.what = What::Lists,
            "exhaustive" => options.what = What::Exhaustive,
            "last-tick" => options.what = What::LastTick,
            "two-axis" => options.axes = Axes::Two,
            "steady" => options.what = What::Steady,
            "units" => options.what = What::Units,
            "changed" => options.what = What::Changed,
            "--seed" => options.seed = number(&value()?)?,
            "--count" => options.count = number(&value()?)?,
            "--from" => options.from = number(&value()?)?,
            "--family" => options.family = Some(value()?),
            "--subject" => options.subject = Some(subject::named(&value()?)?),
            _ => return Err(USAGE.to_string()),
        }
    }
    match (options.axes, &options.what) {
        (Axes::One, _) | (_, What::Lists | What::LastTick | What::Steady) => Ok(options),
        _ => Err(USAGE.to_string()),
    }
}

fn number(text: &str) -> Result<u64, String> {
    text.replace(['_', ','], "")
        .parse()
        .map_err(|_| format!("{text} is no whole number"))
}

/// The family that the options name.
fn family(options: &Options) -> Result<Option<&'static Family>, String> {
    let Some(name) = &options.family else {
        return Ok(None);
    };
    let mut families = families(options.axes).iter();
    let names: Vec<&str> = families.clone().map(|family| family.name).collect();
    match families.find(|family| family.name == name) {
        Some(family) => Ok(Some(family)),
        None => Err(format!(
            "no family is called {name:?}; there are: {}",
            names.join("; ")
        )),
    }
}

/// Compares; false at the first difference, which is printed.
fn run(options: &Options) -> Result<bool, String> {
    let Options {
        axes,
        seed,
        from,
        count,
        ..
    } = *options;
    let library = subject::library();
    let subject = options.subject.or(library).unwrap_or(subject::SECOND);
    let numbers = from..from + count;
    let of_axes = match axes {
        Axes::One => "",
        Axes::Two => " of two axes",
    };
    Ok(match options.what {
        What::Lists => {
            println!(
                "seed {seed}, {count} lists{of_axes} from number {from} on, {} against the reference",
                subject.name
            );
            let craft = subject.craft(axes);
            compare_all(subject, count, inputs(options)?, counts(axes))
                && memory::compare_all(craft, seed, numbers.clone())
                && (axes == Axes::One || odds::compare_all(craft, seed, numbers))
        }
        What::Exhaustive => {
            println!(
                "every list of up to five calls, {} against the reference",
                subject.name
            );
            let inputs = exhaustive::inputs().map(|input| ("exhaustive", input));
            let all = exhaustive::inputs().count() as u64;
            compare_all(subject, all, inputs, counts(axes))
        }
        What::LastTick => {
            println!(
                "the last tick{of_axes}, {} against the reference",
                subject.name
            );
            let input = std::iter::once(("last tick", exhaustive::last_tick(axes)));
            compare_all(subject, 1, input, counts(axes))
        }
        What::Steady => {
            let Some(library) = library else {
                return Err(
                    "steady probes are compared with a library linked: IDENTIFY_LIB".to_string(),
                );
            };
            println!(
                "seed {seed}, {count} lists{of_axes} from number {from} on, opened as steady, {} against the reference",
                library.name
            );
            steady::compare_all(library.craft(axes), seed, numbers)
        }
        What::Units => {
            let subjects = match options.subject {
                Some(subject) => vec![subject],
                None => library.into_iter().chain([subject::SECOND]).collect(),
            };
            let names: Vec<&str> = subjects.iter().map(|subject| subject.name).collect();
            println!(
                "seed {seed}, {count} reports from number {from} on, {} against the reference",
                names.join(" and ")
            );
            units::compare_all(&subjects, seed, numbers)
        }
        What::Changed => {
            println!(
                "seed {seed}, {count} lists from number {from} on, the reference against itself \
                 before request four"
            );
            changed::count_all(count, inputs(options)?);
            true
        }
    })
}

/// The lists that the options name, with their family.
fn inputs(
    options: &Options,
) -> Result<impl Iterator<Item = (&'static str, Input)> + use<>, String> {
    let Options {
        axes,
        seed,
        from,
        count,
        ..
    } = *options;
    let family = family(options)?;
    Ok((from..from + count).map(move |number| Input::numbered(axes, family, seed, number)))
}

fn counts(axes: Axes) -> Box<dyn Tally> {
    match axes {
        Axes::One => Box::new(Counts::default()),
        Axes::Two => Box::new(TwoAxisCounts::default()),
    }
}

fn compare_all(
    subject: Subject,
    all: u64,
    inputs: impl Iterator<Item = (&'static str, Input)>,
    mut counts: Box<dyn Tally>,
) -> bool {
    let mut progress = Progress::default();
    for (number, (family, input)) in inputs.enumerate() {
        let both = compared(subject, &input);
        if both.differ() {
            println!("\nthe answers to list {number} of this run differ; family: {family}");
            show::smallest(subject, input, both);
            return false;
        }
        counts.add(family, &input, &both);
        progress.show(|| counts.progress(all));
    }
    eprintln!();
    counts.print();
    println!("no difference; {:.1} s", progress.seconds());
    true
}
