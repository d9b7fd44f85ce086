//! What one axis and two axes have in common: sizes, and live functions over as many probes.

use library::{Live, LivePair, LiveProbe, LiveStatus};
use reference::{byte_run, probe, two_axis};

/// How many axes a list has.
#[derive(Clone, Copy, Debug, PartialEq)]
pub enum Axes {
    One,
    Two,
}

impl Axes {
    pub fn count(self) -> usize {
        match self {
            Axes::One => 1,
            Axes::Two => 2,
        }
    }

    /// The bytes of a call.
    pub fn call_len(self) -> usize {
        match self {
            Axes::One => byte_run::CALL_LEN,
            Axes::Two => two_axis::CALL_LEN,
        }
    }

    /// The bytes of a report.
    pub fn report_len(self) -> usize {
        match self {
            Axes::One => probe::REPORT_LEN,
            Axes::Two => two_axis::REPORT_LEN,
        }
    }

    /// The bytes that a run over `calls` calls writes.
    pub fn written_len(self, calls: usize) -> usize {
        self.report_len() + 4 * self.count() * calls
    }
}

/// Live functions over one probe or over two.
#[derive(Clone, Copy)]
pub enum Craft {
    One(Live),
    Two(LivePair),
}

impl Craft {
    pub fn axes(&self) -> Axes {
        match self {
            Craft::One(_) => Axes::One,
            Craft::Two(_) => Axes::Two,
        }
    }

    pub fn open(&self, probes: &mut [LiveProbe], config: &[u32; 6], options: u32) -> u32 {
        match self {
            Craft::One(live) => (live.open)(&mut probes[0], config, options),
            Craft::Two(pair) => (pair.open)(two(probes), config, options),
        }
    }

    pub fn ready(&self, probes: &mut [LiveProbe], dt: f32) {
        match self {
            Craft::One(live) => (live.ready)(&mut probes[0], dt),
            Craft::Two(pair) => (pair.ready)(two(probes), dt),
        }
    }

    /// A call; the offsets of both places, of which one axis has the first alone.
    pub fn step(&self, probes: &mut [LiveProbe], call: &[f32], offsets: &mut [f32; 2]) -> u32 {
        match self {
            Craft::One(live) => {
                let call = call.try_into().expect("three floats");
                (live.step)(&mut probes[0], call, &mut offsets[0])
            }
            Craft::Two(pair) => {
                let call = call.try_into().expect("five floats");
                (pair.step)(two(probes), call, offsets)
            }
        }
    }

    pub fn status(&self, probe: &LiveProbe) -> LiveStatus {
        match self {
            Craft::One(live) => (live.status)(probe),
            Craft::Two(pair) => (pair.status)(probe),
        }
    }

    pub fn report(&self, probes: &[LiveProbe], output: &mut [u8]) {
        match self {
            Craft::One(live) => (live.report)(&probes[0], output),
            Craft::Two(pair) => (pair.report)(probes.try_into().expect("two probes"), output),
        }
    }
}

fn two(probes: &mut [LiveProbe]) -> &mut [LiveProbe; 2] {
    probes.try_into().expect("two probes")
}
