//! Lists of calls from a seed, and reports of odd models, in families.

mod families;
mod flight;
pub mod random;
pub mod reports;
mod two_axis;
pub mod uneven;

pub use families::{FAMILIES, Family};
pub use reference::byte_run::Call;

pub use two_axis::{TWO_AXIS_FAMILIES, TwoAxisCall, two_axis_bytes};

use random::Random;
use reference::byte_run::word_at;

/// A configuration, as the byte run's 24 bytes hold it.
#[derive(Clone, Copy, Debug, PartialEq)]
pub struct Config {
    pub amplitude: f32,
    pub duration_s: f32,
    pub washout_tc_s: f32,
    /// Nonzero: an extension.
    pub flag: u32,
    pub extension_amplitude: f32,
    pub extension_duration_s: f32,
}

impl Config {
    /// The configuration in 24 bytes.
    pub fn of(bytes: &[u8]) -> Config {
        let number = |place| f32::from_bits(word_at(bytes, place));
        Config {
            amplitude: number(0),
            duration_s: number(1),
            washout_tc_s: number(2),
            flag: word_at(bytes, 3),
            extension_amplitude: number(4),
            extension_duration_s: number(5),
        }
    }

    pub fn extended(&self) -> bool {
        self.flag != 0
    }

    pub fn bytes(&self) -> Vec<u8> {
        let words = [
            self.amplitude.to_bits(),
            self.duration_s.to_bits(),
            self.washout_tc_s.to_bits(),
            self.flag,
            self.extension_amplitude.to_bits(),
            self.extension_duration_s.to_bits(),
        ];
        words.iter().flat_map(|word| word.to_be_bytes()).collect()
    }
}

/// The bytes of some calls.
pub fn call_bytes(calls: &[Call]) -> Vec<u8> {
    let words = calls
        .iter()
        .flat_map(|call| [call.dt, call.rate, call.moment]);
    words
        .flat_map(|value| value.to_bits().to_be_bytes())
        .collect()
}

/// The input of one byte run.
#[derive(Clone, Debug, PartialEq)]
pub struct List {
    pub family: &'static str,
    pub config: Vec<u8>,
    pub calls: Vec<u8>,
    pub output_len: usize,
}

impl List {
    /// A run with room for its output and now and then some bytes more.
    fn new(random: &mut Random, family: &'static str, config: &Config, calls: &[Call]) -> List {
        List {
            family,
            config: config.bytes(),
            calls: call_bytes(calls),
            output_len: reference::byte_run::written_len(calls.len()) + bytes_more(random),
        }
    }
}

/// Bytes of an output past its end, now and then.
fn bytes_more(random: &mut Random) -> usize {
    if random.once_in(4) {
        random.below(9)
    } else {
        0
    }
}

/// List `number` of `seed`. The family follows from the number, each as often as its weight.
pub fn list(seed: u64, number: u64) -> List {
    list_in(&FAMILIES, seed, number)
}

/// The same of some families.
pub fn list_in(families: &[Family], seed: u64, number: u64) -> List {
    let total: u64 = families.iter().map(|family| family.weight).sum();
    let mut place = number % total;
    for family in families {
        if place < family.weight {
            return of_family(family, seed, number);
        }
        place -= family.weight;
    }
    unreachable!("the place is below the weights' sum")
}

/// List `number` of `seed` in a family.
pub fn of_family(family: &Family, seed: u64, number: u64) -> List {
    let mut random = Random::numbered(seed, number);
    (family.make)(&mut random, family.name)
}
