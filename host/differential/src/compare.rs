//! One list through the reference and through the subject.

use library::PlainUnits;
use lists::random::Random;
use lists::{FAMILIES, Family, TWO_AXIS_FAMILIES};
use reference::account::Taken;
use reference::checked::{Answer, checked_run, checked_two_axis_run};
use reference::plain_units::{UNITS_LEN, plain_units};
use reference::probe::REPORT_LEN;

use crate::axes::Axes;
use crate::live::{Course, Flight, Part};
use crate::subject::Subject;

/// The inputs of a byte run, and of the live functions.
#[derive(Clone, Debug, PartialEq)]
pub struct Input {
    pub axes: Axes,
    pub config: Vec<u8>,
    pub calls: Vec<u8>,
    pub output_len: usize,
    /// The seed of the bytes that a live probe's memory holds before it is opened.
    pub memory: u64,
}

/// The families of lists.
pub fn families(axes: Axes) -> &'static [Family] {
    match axes {
        Axes::One => &FAMILIES,
        Axes::Two => &TWO_AXIS_FAMILIES,
    }
}

impl Input {
    /// List `number` of `seed`, of one family alone where it is named; and its family.
    pub fn numbered(
        axes: Axes,
        family: Option<&Family>,
        seed: u64,
        number: u64,
    ) -> (&'static str, Input) {
        let list = match family {
            None => lists::list_in(families(axes), seed, number),
            Some(family) => lists::of_family(family, seed, number),
        };
        let input = Input {
            axes,
            config: list.config,
            calls: list.calls,
            output_len: list.output_len,
            memory: Random::numbered(!seed, number).bits(),
        };
        (list.family, input)
    }

    /// The number of its calls.
    pub fn count(&self) -> usize {
        self.calls.len() / self.axes.call_len()
    }
}

/// What a call returns, and its output after it.
#[derive(Clone, Debug, PartialEq)]
pub struct Returned {
    pub result: u32,
    pub output: Vec<u8>,
}

impl Returned {
    /// What `call` returns over an output of `len` bytes.
    pub fn by(len: usize, call: impl FnOnce(&mut [u8]) -> u32) -> Returned {
        let mut output = untouched(len);
        let result = call(&mut output);
        Returned { result, output }
    }
}

/// What the bytes of an output hold before a run: no two neighbours alike, so that a byte
/// written where none may be is seen.
fn untouched(len: usize) -> Vec<u8> {
    (0..len).map(|place| (place * 31 + 0xa5) as u8).collect()
}

/// A program's answers to a list: its byte run, the plain units of the report in it, and the same
/// calls flown with the live functions.
#[derive(Clone, Debug, PartialEq)]
pub struct Answers {
    pub run: Returned,
    /// None of a refused run; of two axes the flight tells them.
    pub units: Option<Returned>,
    /// None where the byte run's sizes are wrong.
    pub flight: Option<Flight>,
}

impl Answers {
    fn of(axes: Axes, run: Returned, plain_units: PlainUnits, flight: Option<Flight>) -> Answers {
        let has_units = run.result == 0 && axes == Axes::One;
        let report = run.output.get(..REPORT_LEN).filter(|_| has_units);
        let units =
            report.map(|report| Returned::by(UNITS_LEN, |output| plain_units(report, output)));
        Answers { run, units, flight }
    }
}

/// Both programs' answers to a list.
pub struct Compared {
    /// What the reference's are, for each axis.
    pub axes: Vec<Answer>,
    /// How the first of two axes took the extension.
    pub taken: Option<Taken>,
    pub expected: Answers,
    pub found: Answers,
}

impl Compared {
    /// Whether the subject's return values, any byte of its outputs, or its flight is another.
    pub fn differ(&self) -> bool {
        self.found != self.expected
    }

    /// The first part in which the flights differ.
    pub fn flights_differ_in(&self) -> Option<Part> {
        let expected = self.expected.flight.as_ref()?;
        expected.differs_in(self.found.flight.as_ref()?)
    }
}

/// The reference's answer to a list of one axis, and what its byte run returns.
pub fn reference_run(input: &Input) -> (Answer, Returned) {
    let mut output = untouched(input.output_len);
    let answer = checked_run(&input.config, &input.calls, &mut output);
    let result = answer.result;
    (answer, Returned { result, output })
}

/// The reference's answers for each axis, how the extension was taken, and what the byte run returns.
fn reference_answers(input: &Input) -> (Vec<Answer>, Option<Taken>, Returned) {
    match input.axes {
        Axes::One => {
            let (answer, run) = reference_run(input);
            (vec![answer], None, run)
        }
        Axes::Two => {
            let mut output = untouched(input.output_len);
            let answer = checked_two_axis_run(&input.config, &input.calls, &mut output);
            let result = answer.result;
            let run = Returned { result, output };
            (answer.axes.into(), answer.taken, run)
        }
    }
}

/// The reference's and the subject's answers.
pub fn compared(subject: Subject, input: &Input) -> Compared {
    let Input {
        axes,
        config,
        calls,
        output_len,
        ..
    } = input;
    let (answers, taken, run) = reference_answers(input);
    let (flight, found_flight) = Course::of(input, &run)
        .map(|course| {
            let expected = course.expected(&answers);
            (expected, course.flown(subject.craft(*axes)))
        })
        .unzip();
    let expected = Answers::of(*axes, run, plain_units, flight);
    let run = Returned::by(*output_len, |output| {
        (subject.run(*axes))(config, calls, output)
    });
    let found = Answers::of(*axes, run, subject.plain_units, found_flight);
    Compared {
        axes: answers,
        taken,
        expected,
        found,
    }
}
