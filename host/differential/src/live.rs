//! A list flown with the live functions, and what the reference says of that flight.

use std::collections::BTreeSet;

use library::{LiveProbe, LiveStatus, WINDOW};
use lists::random::Random;
use reference::access::{IdentifyConfig, Samples};
use reference::byte_run::{calls_of, config_of, word_at};
use reference::checked::Answer;
use reference::plain_units::{UNITS_LEN, plain_units};
use reference::probe::{Probe, REPORT_LEN};
use reference::two_axis::{self, TwoAxis};

use crate::axes::{Axes, Craft};
use crate::compare::{Input, Returned};

/// What the live functions answer to a list.
#[derive(Clone, Debug, Default, PartialEq)]
pub struct Flight {
    /// What `open` answers to options without a meaning, and to none.
    pub opened: [u32; 2],
    /// A word for each call and axis, as the byte run writes it.
    pub words: Vec<u32>,
    /// What is seen at some places.
    pub looks: Vec<Look>,
    /// The rates, moments, offsets and marks of each axis that are stored at the end.
    pub windows: Vec<[Vec<u32>; 4]>,
    /// What was written where nothing may be.
    pub written: Vec<String>,
}

/// The report, and the status of each axis, after a number of calls.
#[derive(Clone, Debug, PartialEq)]
pub struct Look {
    pub calls: usize,
    pub report: Vec<u8>,
    pub statuses: Vec<Status>,
}

/// The five numbers of a status, the bits of its six floats, and those of its plain units.
pub type Status = [u32; 13];

/// The parts of a flight, as they are compared.
#[derive(Clone, Copy, Debug, PartialEq)]
pub enum Part {
    Opened,
    Written,
    Words,
    Looks,
    Window,
}

impl Flight {
    /// The first part that differs.
    pub fn differs_in(&self, found: &Flight) -> Option<Part> {
        [
            (Part::Opened, self.opened != found.opened),
            (Part::Written, self.written != found.written),
            (Part::Words, self.words != found.words),
            (Part::Looks, self.looks != found.looks),
            (Part::Window, self.windows != found.windows),
        ]
        .iter()
        .find_map(|(part, differs)| differs.then_some(*part))
    }

    /// Notes bytes that are not as they have to be.
    fn note(&mut self, when: &str, expected: &[u8], found: &[u8]) {
        if expected != found {
            let place = expected
                .iter()
                .zip(found)
                .position(|(one, other)| one != other);
            let place = place.expect("bytes that differ");
            self.written
                .push(format!("{when}, the first at byte {place}"));
        }
    }
}

/// The word that the byte run writes for a live step's answer.
fn answer_word(number: u32, offset: f32) -> u32 {
    match number {
        0 => float::bits(offset),
        _ => float::NAN_BITS.wrapping_add(number),
    }
}

/// Whether a call's word says that it was turned back.
pub fn turned_back(word: u32) -> bool {
    (6..=8).contains(&word.wrapping_sub(float::NAN_BITS))
}

/// The status that goes with a report of one axis.
fn status_of(report: &[u8]) -> Status {
    let mut units = [0; UNITS_LEN];
    plain_units(report, &mut units);
    let head = u32::from(report[0]);
    let (whole, half) = (head >> 2 & 0xf, head >> 1 & 1);
    let [has, lag, acceleration] = std::array::from_fn(|place| word_at(&units, place));
    let [r1, r2, m0, m1, m2, dt_s] = std::array::from_fn(|place| word_at(report, 3 + place));
    let kind = head >> 6;
    [
        kind,
        2 * whole + half,
        whole,
        half,
        has,
        r1,
        r2,
        m0,
        m1,
        m2,
        dt_s,
        lag,
        acceleration,
    ]
}

/// The status that the live functions tell.
fn status_bits(status: &LiveStatus) -> Status {
    let floats = status.floats.iter().chain(&status.plain);
    let mut words = status
        .numbers
        .into_iter()
        .chain(floats.map(|value| float::bits(*value)));
    std::array::from_fn(|_| words.next().expect("13 words"))
}

/// Report and statuses by the live functions.
pub fn look(craft: Craft, probes: &[LiveProbe], calls: usize) -> Look {
    let mut report = vec![0xa5; craft.axes().report_len()];
    craft.report(probes, &mut report);
    let status = |probe| status_bits(&craft.status(probe));
    Look {
        calls,
        report,
        statuses: probes.iter().map(status).collect(),
    }
}

/// The memory of probes, of any bytes.
pub fn any_memory(random: &mut Random, axes: Axes) -> Vec<LiveProbe> {
    let mut probes = vec![LiveProbe::ZERO; axes.count()];
    for probe in &mut probes {
        for part in probe.bytes_mut().chunks_exact_mut(8) {
            part.copy_from_slice(&random.bits().to_ne_bytes());
        }
    }
    probes
}

/// Takes the bytes of other probes.
pub fn copy(probes: &mut [LiveProbe], from: &[LiveProbe]) {
    for (probe, from) in probes.iter_mut().zip(from) {
        probe.copy_from(from);
    }
}

/// The reference's flight of a list.
enum Flown {
    One(Box<Probe>),
    Two(Box<TwoAxis>),
}

impl Flown {
    /// A flight of a configuration that no rule turns back.
    fn new(axes: Axes, config: IdentifyConfig) -> Flown {
        let made = match axes {
            Axes::One => Probe::new(config).map(|probe| Flown::One(Box::new(probe))),
            Axes::Two => TwoAxis::new(config).map(|flight| Flown::Two(Box::new(flight))),
        };
        made.expect("a good configuration")
    }

    fn fly(&mut self, calls: &[u8]) {
        match self {
            Flown::One(probe) => {
                for call in calls_of(calls) {
                    probe.step(call.dt, call.rate, call.moment).ok();
                }
            }
            Flown::Two(flight) => {
                for calls in two_axis::calls_of(calls) {
                    flight.step(calls).ok();
                }
            }
        }
    }

    fn report(&self) -> Vec<u8> {
        match self {
            Flown::One(probe) => probe.report().bytes().to_vec(),
            Flown::Two(flight) => flight.report().to_vec(),
        }
    }
}

/// What the reference says of a list's calls.
pub struct Course<'a> {
    input: &'a Input,
    result: u32,
    report: &'a [u8],
    /// A word for each call and axis.
    words: Vec<u32>,
    /// The floats of all calls.
    floats: Vec<f32>,
    /// The calls that read the marks: the one that reaches the duration, and the one that ends the
    /// probe.
    reads: BTreeSet<usize>,
    /// The call that ends the probe.
    ending: Option<usize>,
}

impl<'a> Course<'a> {
    /// The course of a list; none where its sizes are wrong.
    pub fn of(input: &'a Input, run: &'a Returned) -> Option<Course<'a>> {
        if run.result == 9 {
            return None;
        }
        let axes = input.axes;
        let mut course = Course {
            input,
            result: run.result,
            report: &run.output[..axes.report_len()],
            words: Vec::new(),
            floats: Vec::new(),
            reads: BTreeSet::new(),
            ending: None,
        };
        if run.result == 0 {
            let words = |bytes: &[u8]| {
                (0..bytes.len() / 4)
                    .map(|place| word_at(bytes, place))
                    .collect()
            };
            let written = axes.report_len()..axes.written_len(input.count());
            course.words = words(&run.output[written]);
            let bits: Vec<u32> = words(&input.calls);
            course.floats = bits.into_iter().map(f32::from_bits).collect();
            course.find_reads();
        }
        Some(course)
    }

    /// The floats of each call.
    fn calls(&self) -> impl ExactSizeIterator<Item = &[f32]> {
        self.floats.chunks_exact(self.input.axes.call_len() / 4)
    }

    /// Whether a call is turned back, for all axes.
    fn turned_back(&self, call: usize) -> bool {
        turned_back(self.words[self.input.axes.count() * call])
    }

    /// Finds the calls that read the marks: a probe that goes on into an extension reads them twice.
    /// Of two axes each reads them where the other does.
    fn find_reads(&mut self) {
        let duration_s = config_of(&self.input.config).duration_s;
        let head = self.report[..8].try_into().expect("eight bytes");
        let ticks = (u64::from_be_bytes(head) >> 31 & 0x1ff_ffff) as usize;
        let ended = self.report[0] >> 6 != 0;
        let (mut elapsed_s, mut tick) = (0.0, 0);
        let mut reads = BTreeSet::new();
        for (number, call) in self.calls().enumerate() {
            if tick == ticks || self.turned_back(number) {
                continue;
            }
            tick += 1;
            let before_s = elapsed_s;
            elapsed_s += call[0];
            if before_s < duration_s && elapsed_s >= duration_s || ended && tick == ticks {
                reads.insert(number);
            }
        }
        self.ending = reads.last().copied().filter(|_| ended);
        self.reads = reads;
    }

    /// The numbers of calls after which a flight is looked at: none, all, two of any, and those before
    /// and after a call that reads the marks.
    fn places(&self) -> BTreeSet<usize> {
        let all = self.calls().len();
        let mut random = Random::new(self.input.memory);
        let any = [(); 2].map(|()| random.between(0, all));
        let reads = self.reads.iter().flat_map(|call| [*call, call + 1]);
        [0, all].into_iter().chain(any).chain(reads).collect()
    }

    /// What the reference shows at each place.
    fn looks(&self) -> Vec<Look> {
        let Input { axes, calls, .. } = self.input;
        let mut flown = Flown::new(*axes, config_of(&self.input.config));
        let mut made = 0;
        let look = |place| {
            let ended = self.ending.is_some_and(|ending| ending < place);
            let report = if ended || place == self.calls().len() {
                self.report.to_vec()
            } else {
                flown.fly(&calls[axes.call_len() * made..axes.call_len() * place]);
                made = place;
                flown.report()
            };
            let reports = report.chunks_exact(REPORT_LEN).take(axes.count());
            let statuses = reports.map(status_of).collect();
            Look {
                calls: place,
                report,
                statuses,
            }
        };
        self.places().into_iter().map(look).collect()
    }

    /// What a flight has to answer, by the reference's answers for each axis.
    pub fn expected(&self, axes: &[Answer]) -> Flight {
        let mut flight = Flight {
            opened: [9, self.result],
            words: self.words.clone(),
            ..Flight::default()
        };
        if self.result == 0 {
            let windows = axes.iter().filter_map(|axis| axis.window.as_ref());
            flight.windows = windows.map(stored_bits).collect();
            flight.looks = self.looks();
        }
        flight
    }

    /// What the live functions answer.
    pub fn flown(&self, craft: Craft) -> Flight {
        let mut random = Random::new(self.input.memory);
        let probes = any_memory(&mut random, self.input.axes);
        let mut pilot = Pilot {
            craft,
            before: probes.clone(),
            probes,
            flight: Flight::default(),
        };
        let config = std::array::from_fn(|place| word_at(&self.input.config, place));
        let one_bit = 2 << random.below(31);
        let any = random.word() | one_bit;
        pilot.open(&config, random.pick(&[2, one_bit, any, u32::MAX]));
        if pilot.flight.opened[1] != 0 || self.result != 0 {
            return pilot.flight;
        }
        let places = self.places();
        for (number, call) in self.calls().enumerate() {
            let looked = places.contains(&number);
            if looked {
                pilot.look(number);
            }
            let offset = any.wrapping_add(number as u32);
            let offsets = [offset, !offset].map(f32::from_bits);
            if self.turned_back(number) {
                pilot.turned_back(call, offsets);
            } else {
                if looked {
                    pilot.ready(call[0], self.reads.contains(&number));
                }
                pilot.step(call, offsets);
            }
        }
        pilot.look(self.calls().len());
        pilot.report_beside();
        pilot.landed()
    }
}

/// Flies a list, and looks for bytes written where none may be.
struct Pilot {
    craft: Craft,
    probes: Vec<LiveProbe>,
    /// The probes' bytes as they have to stay.
    before: Vec<LiveProbe>,
    flight: Flight,
}

impl Pilot {
    /// Notes bytes of the probes that are not as they have to be.
    fn note(&mut self, when: &str) {
        for (axis, (before, probe)) in self.before.iter().zip(&self.probes).enumerate() {
            let when = format!("{when}, axis {}", axis + 1);
            self.flight.note(&when, before.bytes(), probe.bytes());
        }
    }

    fn open(&mut self, config: &[u32; 6], options: u32) {
        let odd = self.craft.open(&mut self.probes, config, options);
        self.note("by open with options");
        let opened = self.craft.open(&mut self.probes, config, 0);
        self.flight.opened = [odd, opened];
        if opened == 0 {
            let scalars = ..LiveProbe::SCALARS;
            for (before, probe) in self.before.iter_mut().zip(&self.probes) {
                before.bytes_mut()[scalars].copy_from_slice(&probe.bytes()[scalars]);
            }
            self.before[0].steady = self.probes[0].steady;
            self.before[0].first_dt_s = self.probes[0].first_dt_s;
            self.note("in the window by open");
        } else {
            self.note("by a refused open");
        }
    }

    fn look(&mut self, calls: usize) {
        copy(&mut self.before, &self.probes);
        self.flight
            .looks
            .push(look(self.craft, &self.probes, calls));
        self.note("by report or status");
    }

    /// Reports into outputs that are too short and too long by a byte.
    fn report_beside(&mut self) {
        let len = self.craft.axes().report_len();
        let untouched = vec![0xa5; len + 1];
        let [mut short, mut long] = [(); 2].map(|()| untouched.clone());
        self.craft.report(&self.probes, &mut short[..len - 1]);
        self.craft.report(&self.probes, &mut long);
        self.flight
            .note("by a report into too few bytes", &untouched, &short);
        self.flight
            .note("past a report", &untouched[len..], &long[len..]);
    }

    /// `ready`, before a call that reads the marks or not, after a look.
    fn ready(&mut self, dt: f32, reads: bool) {
        if reads {
            self.before.iter_mut().for_each(LiveProbe::make_marks_plain);
        }
        self.craft.ready(&mut self.probes, dt);
        self.note("by ready");
    }

    /// A call, over what the offsets' places hold; the places after it.
    fn step(&mut self, call: &[f32], mut offsets: [f32; 2]) -> [f32; 2] {
        let number = self.craft.step(&mut self.probes, call, &mut offsets);
        let answered = offsets.iter().take(self.craft.axes().count());
        self.flight
            .words
            .extend(answered.map(|offset| answer_word(number, *offset)));
        offsets
    }

    /// A call that has to be turned back.
    fn turned_back(&mut self, call: &[f32], offsets: [f32; 2]) {
        copy(&mut self.before, &self.probes);
        let after = self.step(call, offsets);
        self.note("by a refused call");
        let [before, after] =
            [offsets, after].map(|offsets| offsets.map(f32::to_ne_bytes).concat());
        self.flight
            .note("at the offset of a refused call", &before, &after);
    }

    /// The flight, with the windows that it leaves.
    fn landed(self) -> Flight {
        let window = |probe: &LiveProbe| {
            let stored = WINDOW.min(probe.words[3] as usize);
            let floats = [&probe.rates, &probe.moments, &probe.offsets];
            let held = probe.held[..stored].iter().map(|mark| u32::from(*mark));
            window_bits(floats.map(|part| &part[..stored]), held)
        };
        Flight {
            windows: self.probes.iter().map(window).collect(),
            ..self.flight
        }
    }
}

/// The words of the samples that are stored.
fn stored_bits(samples: &Samples) -> [Vec<u32>; 4] {
    let held = samples.held.iter().map(|held| u32::from(*held));
    window_bits([&samples.rates, &samples.moments, &samples.offsets], held)
}

/// The words of a window: rates, moments, offsets and marks.
fn window_bits(floats: [&[f32]; 3], held: impl Iterator<Item = u32>) -> [Vec<u32>; 4] {
    let [rates, moments, offsets] =
        floats.map(|part| part.iter().map(|value| float::bits(*value)).collect());
    [rates, moments, offsets, held.collect()]
}
