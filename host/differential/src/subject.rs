//! What is held against the reference.

use library::{ByteRun, Live, LivePair, PlainUnits};

use crate::axes::{Axes, Craft};

/// A program with 01's byte run, 02's plain units and byte run of two axes, and the live functions of
/// one axis and of two.
#[derive(Clone, Copy)]
pub struct Subject {
    pub name: &'static str,
    pub byte_run: ByteRun,
    pub plain_units: PlainUnits,
    pub live: Live,
    pub two_axis_run: ByteRun,
    pub live_pair: LivePair,
}

impl Subject {
    /// Its byte run.
    pub fn run(&self, axes: Axes) -> ByteRun {
        match axes {
            Axes::One => self.byte_run,
            Axes::Two => self.two_axis_run,
        }
    }

    /// Its live functions.
    pub fn craft(&self, axes: Axes) -> Craft {
        match axes {
            Axes::One => Craft::One(self.live),
            Axes::Two => Craft::Two(self.live_pair),
        }
    }
}

pub const SECOND: Subject = Subject {
    name: "the second program",
    byte_run: second::byte_run,
    plain_units: second::plain_units,
    live: second::LIVE,
    two_axis_run: second::two_axis_run,
    live_pair: second::LIVE_PAIR,
};

/// The library, where one was linked.
pub fn library() -> Option<Subject> {
    Some(Subject {
        name: "the static library",
        byte_run: library::BYTE_RUN?,
        plain_units: library::PLAIN_UNITS?,
        live: library::LIVE?,
        two_axis_run: library::TWO_AXIS_RUN?,
        live_pair: library::LIVE_PAIR?,
    })
}

/// The subject by its name: `library`, where one was linked, or `second`.
pub fn named(name: &str) -> Result<Subject, String> {
    match name {
        "second" => Ok(SECOND),
        "library" => library()
            .ok_or_else(|| "no library was linked: build with IDENTIFY_LIB=PATH".to_string()),
        other => Err(format!("no subject is called {other:?}: library or second")),
    }
}
