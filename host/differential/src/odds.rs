//! Two probes that no list of calls leaves side by side: each has been flown by itself, some of their
//! numbers are made any, and then both are flown as a pair. The subject is held against the second
//! program.

use std::ops::Range;

use library::{LiveProbe, WINDOW};
use lists::random::Random;
use reference::byte_run::{calls_of, word_at};
use second::LIVE;

use crate::axes::Craft;
use crate::memory::{Answer, Memory, Seen, answers, any_reading, shrunk};
use crate::progress::Progress;
use crate::show;

/// The most calls of a probe before it is one of a pair.
const LONGEST: usize = 150;

/// Memory `number` of `seed`.
pub fn memory(seed: u64, number: u64) -> Memory {
    let mut random = Random::numbered(seed, number);
    let mut probes: Vec<LiveProbe> = (0..2).map(|_| flown(&mut random)).collect();
    for probe in &mut probes {
        if random.once_in(3) {
            loosen(&mut random, probe);
        }
    }
    let calls = (0..random.between(1, 4))
        .map(|_| {
            let mut call = vec![dt(&mut random, &probes)];
            call.extend((0..4).map(|_| match random.below(4) {
                0 => any_reading(&mut random),
                _ => random.range(-1.0, 1.0) as f32,
            }));
            call
        })
        .collect();
    Memory { probes, calls }
}

/// A probe after some calls of a list, mostly before its end, with marks of any bytes.
fn flown(random: &mut Random) -> LiveProbe {
    let mut probe = LiveProbe::ZERO;
    let calls = opened(random, &mut probe);
    let ended_too = random.once_in(6);
    let mut before = probe.clone();
    for call in calls {
        before.copy_from(&probe);
        (LIVE.step)(&mut probe, call, &mut 0.0);
        if probe.words[0] != 0 {
            if !ended_too {
                probe.copy_from(&before);
            }
            break;
        }
    }
    if random.once_in(20) {
        probe.words[2] = (1 << 24) - random.below(2) as u32;
    }
    let stored = WINDOW.min(probe.words[3] as usize);
    for (place, mark) in probe.held.iter_mut().enumerate() {
        if place >= stored || *mark != 0 {
            *mark = random.between(1, 255) as u8;
        }
    }
    probe
}

/// Makes flags, some scalars and now and then the window any. The counts stay those of a probe.
fn loosen(random: &mut Random, probe: &mut LiveProbe) {
    let kind = random.pick(&[0, 0, 0, 1, 2, 3, 4, u32::MAX]);
    let [extension, high] = [(); 2].map(|()| random.below(3) as u32);
    probe.words[0] = kind;
    probe.words[5] = extension;
    probe.words[7] = high;
    if kind == 0 {
        // A running probe has made no gain fits.
        probe.words[4] = 0;
    }
    for value in &mut probe.floats {
        if random.once_in(4) {
            *value = any_float(random);
        }
    }
    // The next edge: one below 0 is taken for 0.
    probe.floats[5] = probe.floats[5].max(0.0);
    if random.once_in(4) {
        let often = random.pick(&[1, 5, 50]);
        for value in probe.rates.iter_mut().chain(&mut probe.moments) {
            if random.once_in(often) {
                *value = any_float(random);
            }
        }
    }
}

fn any_float(random: &mut Random) -> f32 {
    const EDGES: [f32; 8] = [0.0, -0.0, 0.2, 1.0, 2.0, 3_600.0, f32::INFINITY, f32::NAN];
    let any = f32::from_bits(random.word());
    if random.once_in(3) {
        any
    } else {
        random.pick(&EDGES)
    }
}

/// Opens a probe, high or low, by a list that has few calls; and some of these.
fn opened(random: &mut Random, probe: &mut LiveProbe) -> Vec<[f32; 3]> {
    loop {
        let number = random.bits() >> 8;
        let list = lists::list(random.bits(), number);
        if list.config.len() != 24 || list.calls.len() > 12 * LONGEST {
            continue;
        }
        let config = std::array::from_fn(|place| word_at(&list.config, place));
        if (LIVE.open)(probe, &config, 0) != 0 {
            continue;
        }
        probe.words[7] = random.below(2) as u32;
        let calls = calls_of(&list.calls).map(|call| [call.dt, call.rate, call.moment]);
        let all = list.calls.len() / 12;
        let made = match random.below(3) {
            0 => random.between(0, all),
            _ => all,
        };
        return calls.take(made).collect();
    }
}

/// A dt that brings one axis or both to the end time, or any other.
fn dt(random: &mut Random, probes: &[LiveProbe]) -> f32 {
    let to_the_end: Vec<f32> = probes
        .iter()
        .map(|probe| probe.floats[0] - probe.floats[13])
        .collect();
    let longer = to_the_end[0].max(to_the_end[1]);
    match random.below(8) {
        0 => random.pick(&[0.0, f32::NAN, -1.0, 5_000.0, 4_000.0]),
        1 => random.pick(&[0.004, 0.25, 1.0]),
        2 => random.pick(&to_the_end),
        3 => longer * random.range(0.3, 3.0) as f32,
        _ => longer,
    }
}

/// The subject's answers where they are the second program's, else what is not.
pub fn agreed(craft: Craft, memory: &Memory) -> Result<Vec<Answer>, String> {
    let (expected, left) = answers(Craft::Two(second::LIVE_PAIR), memory);
    let (found, left_by_subject) = answers(craft, memory);
    if let Some(place) = (0..found.len()).find(|place| expected[*place] != found[*place]) {
        return Err(format!(
            "call {place}:\nthe second program {}\nthe subject {}",
            text(&expected[place]),
            text(&found[place])
        ));
    }
    for (axis, (one, other)) in left.iter().zip(&left_by_subject).enumerate() {
        if parts(one) != parts(other) {
            let [one, other] = [one, other].map(|probe| (probe.words, probe.floats));
            return Err(format!(
                "axis {} is left otherwise:\nthe second program {one:?}\nthe subject {other:?}",
                axis + 1
            ));
        }
    }
    Ok(found)
}

fn text(answer: &Answer) -> String {
    format!("{answer:?}, report {}", show::hex(&answer.look.report))
}

/// All words of a probe, every NaN as one.
fn parts(probe: &LiveProbe) -> (Vec<u32>, &[u8]) {
    let floats = [
        &probe.floats[..],
        &probe.rates,
        &probe.moments,
        &probe.offsets,
    ];
    let bits = floats
        .into_iter()
        .flatten()
        .map(|value| float::bits(*value));
    (probe.words.into_iter().chain(bits).collect(), &probe.held)
}

/// Flies pairs at odds, `numbers` of `seed`; false at the first difference, which is printed.
pub fn compare_all(craft: Craft, seed: u64, numbers: Range<u64>) -> bool {
    let all = numbers.end - numbers.start;
    let mut progress = Progress::default();
    let mut seen = Seen::default();
    for number in numbers {
        let memory = memory(seed, number);
        match agreed(craft, &memory) {
            Ok(answers) => seen.add(&answers),
            Err(_) => {
                println!("\nthe answers over pair {number} at odds differ");
                let small = shrunk(memory, |memory| agreed(craft, memory).is_err());
                small.show();
                let fault = agreed(craft, &small).err();
                println!("{}", fault.unwrap_or_default());
                return false;
            }
        }
        progress.show(|| format!("pair {number} of {all} at odds"));
    }
    seen.print(
        &format!("{all} pairs of probes at odds, as the second program"),
        progress.seconds(),
    );
    true
}
