//! The families of lists.

mod beyond;
mod calls;
mod flights;
pub mod made;
mod windows;

use crate::List;
use crate::random::Random;

/// A kind of list, made from random numbers.
pub struct Family {
    pub name: &'static str,
    /// How often it is made, against the others.
    pub weight: u64,
    pub make: fn(&mut Random, &'static str) -> List,
}

pub const FAMILIES: [Family; 24] = [
    Family {
        name: "clean flight",
        weight: 10,
        make: flights::clean_flight,
    },
    Family {
        name: "noisy flight",
        weight: 8,
        make: flights::noisy_flight,
    },
    Family {
        name: "noisy flight, extended",
        weight: 6,
        make: flights::extended_flight,
    },
    Family {
        name: "extended, then otherwise",
        weight: 3,
        make: flights::extended_then_otherwise,
    },
    Family {
        name: "saturated around a fifth",
        weight: 6,
        make: flights::saturated_share,
    },
    Family {
        name: "held, runs of 11 to 13",
        weight: 6,
        make: windows::held_runs,
    },
    Family {
        name: "wild stretch between held",
        weight: 4,
        make: windows::wild_stretch,
    },
    Family {
        name: "ties and constants",
        weight: 6,
        make: windows::ties,
    },
    Family {
        name: "nearly constant",
        weight: 4,
        make: windows::nearly_constant,
    },
    Family {
        name: "gain of 0",
        weight: 3,
        make: windows::zero_gain,
    },
    Family {
        name: "overflowing residual",
        weight: 4,
        make: windows::overflowing,
    },
    Family {
        name: "rates beyond f32 apart",
        weight: 4,
        make: beyond::rates_apart,
    },
    Family {
        name: "recorded error beyond f32",
        weight: 3,
        make: beyond::recorded_beyond,
    },
    Family {
        name: "gain beyond f32",
        weight: 3,
        make: beyond::gain_beyond,
    },
    Family {
        name: "search cut short",
        weight: 3,
        make: beyond::search_cut_short,
    },
    Family {
        name: "at the noise limit",
        weight: 2,
        make: windows::noise_limit,
    },
    Family {
        name: "wild values",
        weight: 8,
        make: calls::wild_values,
    },
    Family {
        name: "window of 0 to 30",
        weight: 8,
        make: windows::short_window,
    },
    Family {
        name: "window of 12, tiny squares",
        weight: 2,
        make: windows::tiny_twelve,
    },
    Family {
        name: "more than 2,048 ticks",
        weight: 1,
        make: flights::full_window,
    },
    Family {
        name: "long dt",
        weight: 6,
        make: calls::long_dt,
    },
    Family {
        name: "refused calls within",
        weight: 6,
        make: calls::refused_calls,
    },
    Family {
        name: "bad configuration",
        weight: 8,
        make: calls::bad_config,
    },
    Family {
        name: "bad buffer sizes",
        weight: 4,
        make: calls::bad_buffers,
    },
];
