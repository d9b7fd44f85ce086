//! Live functions over memory of any bytes: what they answer is in range, and the same where the marks
//! are made 0 or 1 beforehand.

use std::collections::BTreeMap;
use std::ops::Range;

use library::{LiveProbe, WINDOW};
use lists::random::Random;

use crate::axes::{Axes, Craft};
use crate::counts::pairs;
use crate::live::{Look, any_memory, copy, look};
use crate::progress::Progress;
use crate::show;
use crate::shrink::simpler;

/// The probes of as many axes, of any bytes, and calls to them: dt, and rate and moment of each.
#[derive(Clone)]
pub struct Memory {
    pub probes: Vec<LiveProbe>,
    pub calls: Vec<Vec<f32>>,
}

/// Memory `number` of `seed`: any bytes; or scalars that are mostly a running probe's, over a window
/// of any floats or of ordinary ones, with marks of any bytes.
pub fn memory(axes: Axes, seed: u64, number: u64) -> Memory {
    let mut random = Random::numbered(seed, number);
    let mut probes = any_memory(&mut random, axes);
    if !random.once_in(4) {
        let ordinary = random.once_in(2);
        let most_stored = if ordinary { 60 } else { WINDOW + 9 };
        for probe in &mut probes {
            make_likely(&mut random, probe, most_stored);
            if ordinary {
                make_ordinary(&mut random, probe);
            }
        }
    }
    let calls = (0..random.between(1, 4))
        .map(|_| {
            let dt = likely(&mut random, &[0.004, 0.25, 1.0, 4_000.0, 0.0, f32::NAN]);
            let mut call = vec![dt];
            call.extend((0..2 * axes.count()).map(|_| any_reading(&mut random)));
            call
        })
        .collect();
    Memory { probes, calls }
}

pub fn any_reading(random: &mut Random) -> f32 {
    let any = f32::from_bits(random.word());
    random.pick(&[0.5, -1.0, f32::INFINITY, any])
}

/// One of `values`, and any float once in eight.
fn likely(random: &mut Random, values: &[f32]) -> f32 {
    if random.once_in(8) {
        f32::from_bits(random.word())
    } else {
        random.pick(values)
    }
}

/// Makes most scalars such as a probe has, with as many stored samples at most.
fn make_likely(random: &mut Random, probe: &mut LiveProbe, most_stored: usize) {
    const TICKS: [u32; 4] = [0, 100, (1 << 24) - 1, 1 << 24];
    let words = [
        random.pick(&[0, 0, 0, 0, 1, 2, 3, 4]),
        random.below(24) as u32,
        random.pick(&TICKS),
        random.between(0, most_stored) as u32,
        random.pick(&[0, 2_580, 2_604, 4_096]),
        random.below(3) as u32,
        random.below(40) as u32,
        random.below(3) as u32,
    ];
    for (place, word) in probe.words.iter_mut().zip(words) {
        if !random.once_in(8) {
            *place = word;
        }
    }
    // The number of samples decides how long a fit takes.
    probe.words[3] = words[3];
    const FLOATS: [f32; 8] = [0.0, -0.0, 0.2, 1.0, 2.0, 3_600.0, f32::INFINITY, f32::NAN];
    for place in &mut probe.floats {
        *place = likely(random, &FLOATS);
    }
}

/// Makes the window's numbers ordinary, and most marks 0.
fn make_ordinary(random: &mut Random, probe: &mut LiveProbe) {
    let stored = WINDOW.min(probe.words[3] as usize);
    for place in 0..stored {
        probe.rates[place] = random.range(-1.0, 1.0) as f32;
        probe.moments[place] = random.range(-1.0, 1.0) as f32;
        if !random.once_in(20) {
            probe.held[place] = 0;
        }
    }
}

/// What is answered to a call.
#[derive(Debug, PartialEq)]
pub struct Answer {
    pub number: u32,
    /// The bits of the offsets' places, which hold [`UNTOUCHED`] before the call.
    offsets: [u32; 2],
    /// Whether the call is turned back and a byte of a probe is another than before.
    written: bool,
    /// Whether all axes ran before the call and one does not after it.
    pub ended: bool,
    pub look: Look,
}

const UNTOUCHED: f32 = 0.5;

/// The answers over the probes' bytes, and those bytes after them.
pub fn answers(craft: Craft, memory: &Memory) -> (Vec<Answer>, Vec<LiveProbe>) {
    let mut answers = Vec::new();
    let mut probes = memory.probes.clone();
    let mut before = probes.clone();
    for (place, call) in memory.calls.iter().enumerate() {
        copy(&mut before, &probes);
        let mut offsets = [UNTOUCHED; 2];
        let number = craft.step(&mut probes, call, &mut offsets);
        let look = look(craft, &probes, place + 1);
        let ran = before.iter().all(|probe| probe.words[0] == 0);
        let runs = look.statuses.iter().all(|status| status[0] == 0);
        answers.push(Answer {
            number,
            offsets: offsets.map(float::bits),
            written: number != 0 && differ(&before, &probes),
            ended: ran && !runs,
            look,
        });
    }
    (answers, probes)
}

/// Whether a byte of some probes is another.
fn differ(probes: &[LiveProbe], others: &[LiveProbe]) -> bool {
    let mut both = probes.iter().zip(others);
    both.any(|(probe, other)| probe.bytes() != other.bytes())
}

/// The answers over a memory, or what is wrong with them.
pub fn checked(craft: Craft, memory: &Memory) -> Result<Vec<Answer>, String> {
    let (found, mut after) = answers(craft, memory);
    let mut plain = memory.clone();
    plain.make_marks_plain();
    let (expected, plain_after) = answers(craft, &plain);
    for (place, (answer, with_plain)) in found.iter().zip(&expected).enumerate() {
        let Answer {
            number,
            offsets,
            written,
            look,
            ..
        } = answer;
        for (axis, status) in look.statuses.iter().enumerate() {
            let kinds = [status[0], u32::from(look.report[36 * axis] >> 6)];
            if !matches!(number, 0 | 6..=8 | 10) || kinds[0] != kinds[1] {
                return Err(format!(
                    "call {place} is answered by {number}, kind {} of the status, {} of the report",
                    kinds[0], kinds[1]
                ));
            }
        }
        if *written || *number != 0 && *offsets != [UNTOUCHED.to_bits(); 2] {
            return Err(format!(
                "call {place} is turned back by {number}, and something is written"
            ));
        }
        if answer != with_plain {
            return Err(format!(
                "call {place} is answered otherwise where the marks are 0 and 1:\n{answer:?}\n{with_plain:?}"
            ));
        }
    }
    after.iter_mut().for_each(LiveProbe::make_marks_plain);
    if differ(&after, &plain_after) {
        Err("another probe is left where the marks are 0 and 1".to_string())
    } else {
        Ok(found)
    }
}

/// The memory with fewer calls and more zeros for as long as something is wrong.
pub fn shrunk(mut memory: Memory, wrong: impl Fn(&Memory) -> bool) -> Memory {
    let mut try_change = |change: &dyn Fn(&mut Memory)| {
        let mut changed = memory.clone();
        change(&mut changed);
        let better = changed.differs_from(&memory) && wrong(&changed);
        if better {
            memory = changed;
        }
        better
    };
    while try_change(&|memory| memory.calls.truncate(memory.calls.len().saturating_sub(1))) {}
    while try_change(&|memory| memory.calls = memory.calls.iter().skip(1).cloned().collect()) {}
    for length in [LiveProbe::LEN, 8_192, 2_048, 256, 32, 4] {
        for first in (0..LiveProbe::LEN).step_by(length) {
            let end = LiveProbe::LEN.min(first + length);
            for axis in 0..2 {
                try_change(&|memory| {
                    if let Some(probe) = memory.probes.get_mut(axis) {
                        probe.bytes_mut()[first..end].fill(0);
                    }
                });
            }
        }
    }
    memory
}

/// The memory with simpler scalars for as long as something is wrong.
fn simplified(mut memory: Memory, wrong: impl Fn(&Memory) -> bool) -> Memory {
    for axis in 0..memory.probes.len() {
        for first in (0..LiveProbe::SCALARS).step_by(4) {
            let range = first..first + 4;
            let bytes = memory.probes[axis].bytes()[range.clone()].try_into();
            for word in simpler(u32::from_ne_bytes(bytes.expect("four bytes"))) {
                let mut changed = memory.clone();
                changed.probes[axis].bytes_mut()[range.clone()]
                    .copy_from_slice(&word.to_ne_bytes());
                if wrong(&changed) {
                    memory = changed;
                    break;
                }
            }
        }
    }
    memory
}

impl Memory {
    pub fn make_marks_plain(&mut self) {
        self.probes.iter_mut().for_each(LiveProbe::make_marks_plain);
    }

    fn differs_from(&self, other: &Memory) -> bool {
        self.calls.len() != other.calls.len() || differ(&self.probes, &other.probes)
    }

    pub fn show(&self) {
        for probe in &self.probes {
            println!("words         {:X?}", probe.words);
            let floats = probe.floats.map(f32::to_bits);
            println!("floats        {floats:08X?}");
            let window = &probe.bytes()[LiveProbe::SCALARS..];
            let others = window.iter().filter(|byte| **byte != 0).count();
            println!("window        {others} bytes are not 0");
        }
        for call in &self.calls {
            let bytes: Vec<u8> = call
                .iter()
                .flat_map(|value| value.to_bits().to_be_bytes())
                .collect();
            println!("call          {}", show::hex(&bytes));
        }
    }
}

/// What was answered over some memories.
#[derive(Default)]
pub struct Seen {
    calls: BTreeMap<u32, u64>,
    kinds: BTreeMap<u32, u64>,
    ended: u64,
}

impl Seen {
    pub fn add(&mut self, answers: &[Answer]) {
        for answer in answers {
            *self.calls.entry(answer.number).or_default() += 1;
            for status in &answer.look.statuses {
                *self.kinds.entry(status[0]).or_default() += 1;
            }
            self.ended += u64::from(answer.ended);
        }
    }

    /// One line about memories of this kind.
    pub fn print(&self, what: &str, seconds: f64) {
        println!(
            "live: {what}, {} calls by answer: {}; by kind after it: {}; {} ended a running probe; \
             {seconds:.1} s",
            self.calls.values().sum::<u64>(),
            pairs(&self.calls),
            pairs(&self.kinds),
            self.ended
        );
    }
}

/// Flies over the memories `numbers` of `seed`; false at the first fault, which is printed.
pub fn compare_all(craft: Craft, seed: u64, numbers: Range<u64>) -> bool {
    let all = numbers.end - numbers.start;
    let mut progress = Progress::default();
    let mut seen = Seen::default();
    for number in numbers {
        let memory = memory(craft.axes(), seed, number);
        match checked(craft, &memory) {
            Ok(answers) => seen.add(&answers),
            Err(_) => {
                println!("\nthe answers over memory {number} of any bytes are wrong");
                let small = smallest(craft, memory);
                small.show();
                let fault = checked(craft, &small).err();
                println!("{}", fault.unwrap_or_default());
                return false;
            }
        }
        progress.show(|| format!("memory {number} of {all}"));
    }
    let what = match craft.axes() {
        Axes::One => "probes",
        Axes::Two => "pairs of probes",
    };
    seen.print(&format!("{all} {what} of any bytes"), progress.seconds());
    true
}

/// The smallest memory found whose answers are wrong too.
pub fn smallest(craft: Craft, memory: Memory) -> Memory {
    let wrong = |memory: &Memory| checked(craft, memory).is_err();
    simplified(shrunk(memory, wrong), wrong)
}
