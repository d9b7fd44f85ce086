//! The smallest input that still shows a difference, as far as cutting and simplifying go.

use std::time::{Duration, Instant};

use crate::compare::{Input, compared};
use crate::live::Part;
use crate::subject::Subject;

/// How long an input is made smaller.
const LONGEST: Duration = Duration::from_secs(60);

/// Cuts calls out and makes values simpler for as long as a difference of the same kind stays.
pub fn shrunk(subject: Subject, input: Input) -> Input {
    let Some(kind) = kind(subject, &input) else {
        return input;
    };
    let mut shrinker = Shrinker {
        subject,
        input,
        kind,
        end: Instant::now() + LONGEST,
    };
    loop {
        let before = shrinker.input.clone();
        shrinker.fit_output();
        shrinker.cut_calls();
        shrinker.simplify();
        if shrinker.input == before || shrinker.over() {
            return shrinker.input;
        }
    }
}

/// The two return values of a difference, whether the runs differ, and the part of the flights that
/// does. Where neither is so the plain units differ alone.
type Kind = (u32, u32, bool, Option<Part>);

fn kind(subject: Subject, input: &Input) -> Option<Kind> {
    let compared = compared(subject, input);
    compared.differ().then(|| {
        let (expected, found) = (&compared.expected.run, &compared.found.run);
        (
            expected.result,
            found.result,
            expected != found,
            compared.flights_differ_in(),
        )
    })
}

struct Shrinker {
    subject: Subject,
    input: Input,
    kind: Kind,
    end: Instant,
}

impl Shrinker {
    fn over(&self) -> bool {
        Instant::now() > self.end
    }

    /// Takes `changed` in the input's place if it shows the same kind of difference.
    fn try_change(&mut self, changed: Input) -> bool {
        let better = changed != self.input
            && !self.over()
            && kind(self.subject, &changed) == Some(self.kind);
        if better {
            self.input = changed;
        }
        better
    }

    /// An output of just the length that the calls need.
    fn fit_output(&mut self) {
        let output_len = self.input.axes.written_len(self.input.count());
        self.try_change(Input {
            output_len,
            ..self.input.clone()
        });
    }

    /// Cuts runs of calls out, long ones first.
    fn cut_calls(&mut self) {
        let axes = self.input.axes;
        let (call_len, answer_len) = (axes.call_len(), 4 * axes.count());
        let mut length = self.input.count();
        while length > 0 {
            let mut first = 0;
            while (first + length) * call_len <= self.input.calls.len() {
                let mut changed = self.input.clone();
                changed
                    .calls
                    .drain(first * call_len..(first + length) * call_len);
                changed.output_len = changed.output_len.saturating_sub(answer_len * length);
                if !self.try_change(changed) {
                    first += length;
                }
            }
            length /= 2;
        }
    }

    /// Puts simple values in the place of each word.
    fn simplify(&mut self) {
        for place in 0..self.input.config.len() / 4 {
            self.simplify_word(place, |input| &mut input.config);
        }
        for place in 0..self.input.calls.len() / 4 {
            self.simplify_word(place, |input| &mut input.calls);
        }
    }

    /// The first simpler word that keeps the difference.
    fn simplify_word(&mut self, place: usize, bytes: fn(&mut Input) -> &mut Vec<u8>) {
        let range = 4 * place..4 * place + 4;
        let old = bytes(&mut self.input)[range.clone()].try_into();
        for word in simpler(u32::from_be_bytes(old.expect("four bytes"))) {
            let mut changed = self.input.clone();
            bytes(&mut changed)[range.clone()].copy_from_slice(&word.to_be_bytes());
            if self.try_change(changed) {
                return;
            }
        }
    }
}

/// Words simpler than `old`, the simplest first: a few values, then its own with fewer digits.
pub fn simpler(old: u32) -> Vec<u32> {
    let simple = [0.0f32, 1.0, 0.5, 0.25, 2.0].map(f32::to_bits);
    if simple.contains(&old) {
        return Vec::new();
    }
    let fewer = [0xff80_0000, 0xfff0_0000, 0xffff_0000, 0xffff_ff00].map(|mask| old & mask);
    let words = simple.into_iter().chain(fewer);
    words.filter(|word| *word != old).collect()
}
