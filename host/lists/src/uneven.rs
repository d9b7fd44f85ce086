//! Clocks that are uneven, for probes that are opened as steady: the dt of a list changed such that
//! the test of 02's request six matters.

use reference::byte_run::{CONFIG_LEN, word_at};

use crate::List;
use crate::random::Random;

/// The shares of the first dt between which a dt is accepted.
const BAND: [f32; 2] = [0.75, 1.25];
/// A dt that is longer than any probe runs, and the longest duration.
const TOO_LONG_S: f32 = 5_000.0;
const LONGEST_S: f32 = 3_600.0;

/// How a clock is uneven.
#[derive(Clone, Copy, Debug, PartialEq, Eq, PartialOrd, Ord)]
pub enum Clock {
    /// The list's own dt.
    AsItIs,
    /// A logger that drops every third tick: dt and twice dt in turn.
    Dropped,
    /// The band's ends and the values next to them.
    Ends,
    /// From half to one and a half times the first.
    Around,
    /// Values that 6 or 7 turns back, and tiny ones.
    TurnedBack,
    /// A first dt of any size, from the least value to 4,096 s, and then the band's ends.
    AnySize,
}

impl Clock {
    pub const ALL: [Clock; 6] = [
        Clock::AsItIs,
        Clock::Dropped,
        Clock::Ends,
        Clock::Around,
        Clock::TurnedBack,
        Clock::AnySize,
    ];

    pub fn name(self) -> &'static str {
        match self {
            Clock::AsItIs => "as it is",
            Clock::Dropped => "every third tick dropped",
            Clock::Ends => "the band's ends",
            Clock::Around => "around the band",
            Clock::TurnedBack => "turned back by 6 and 7",
            Clock::AnySize => "a first dt of any size",
        }
    }
}

impl List {
    /// The list with an uneven clock, and which. A call has `call_len` bytes.
    pub fn uneven(&mut self, random: &mut Random, call_len: usize) -> Clock {
        let clock = random.pick(&Clock::ALL);
        if clock == Clock::AnySize && self.config.len() == CONFIG_LEN {
            // The longest duration and no extension, so that the first dt is not the end.
            self.config[4..8].copy_from_slice(&LONGEST_S.to_bits().to_be_bytes());
            self.config[12..16].fill(0);
        }
        let of_call = |call: &[u8]| f32::from_bits(word_at(call, 0));
        let mut dts: Vec<f32> = self.calls.chunks_exact(call_len).map(of_call).collect();
        clock.change(random, &mut dts);
        for (call, dt) in self.calls.chunks_exact_mut(call_len).zip(dts) {
            call[..4].copy_from_slice(&dt.to_bits().to_be_bytes());
        }
        clock
    }
}

impl Clock {
    fn change(self, random: &mut Random, dts: &mut [f32]) {
        let good = |dt: &&f32| **dt > 0.0 && dt.is_finite();
        let Some(&first) = dts.iter().find(good) else {
            return;
        };
        let often = random.pick(&[2, 10, 100]);
        match self {
            Clock::AsItIs => {}
            Clock::Dropped => {
                for dt in dts.iter_mut().skip(1).step_by(2) {
                    *dt = 2.0 * first;
                }
            }
            Clock::AnySize => {
                let first = any_size(random);
                dts.fill_with(|| around_an_end(random, first));
                dts[0] = first;
            }
            Clock::Ends => some(random, often, dts, |random| around_an_end(random, first)),
            Clock::Around => some(random, often, dts, |random| {
                random.range(0.5, 1.5) as f32 * first
            }),
            Clock::TurnedBack => some(random, often, dts, |random| {
                random.pick(&[0.0, -1.0, f32::NAN, f32::INFINITY, TOO_LONG_S, 1e-40])
            }),
        }
        if random.once_in(8) {
            // A first call that is turned back is not the first accepted.
            dts[0] = random.pick(&[0.0, TOO_LONG_S]);
        }
    }
}

/// Changes one dt in so many.
fn some(random: &mut Random, often: usize, dts: &mut [f32], dt: impl Fn(&mut Random) -> f32) {
    for place in dts {
        if random.once_in(often) {
            *place = dt(random);
        }
    }
}

/// An end of the band in f32, or a value next to it.
fn around_an_end(random: &mut Random, first: f32) -> f32 {
    let end = random.pick(&BAND) * first;
    let off = random.below(3) as u32;
    f32::from_bits((end.to_bits() + off).wrapping_sub(1))
}

/// Any positive value up to 4,096, each exponent as likely as the next.
fn any_size(random: &mut Random) -> f32 {
    let most = 4_096.0f32.to_bits();
    f32::from_bits(1 + random.below(most as usize) as u32)
}
