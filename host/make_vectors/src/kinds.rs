//! The vector files: name, layout of a record, inputs, and what makes each from a seed.
//!
//! In a layout f is a float's 32 bits, w a 32-bit whole number.

use crate::file::File;
use crate::{fits, scalars, sweep, units, window};

pub struct Kind {
    pub name: &'static str,
    pub layout: &'static str,
    pub inputs: &'static str,
    pub make: fn(u64) -> File,
}

/// All files but those of whole byte runs.
pub const KINDS: [Kind; 22] = [
    Kind {
        name: "narrow",
        layout: "f64 bits (8 bytes), f narrowed",
        inputs: "all exponents, midpoints of neighbouring f32 and the f64 beside them, the subnormal range, \
                 the ends, infinities, NaNs",
        make: scalars::narrow,
    },
    Kind {
        name: "root",
        layout: "f, f its root",
        inputs: "all exponents and signs, subnormals, squares and their neighbours, squares of midpoints, \
                 infinities, NaNs; random positive values",
        make: scalars::root,
    },
    Kind {
        name: "exp",
        layout: "f at most 0, f e to it",
        inputs: "all exponents below 0, both zeros, -104 and other edges with twenty neighbours on each side, \
                 minus infinity, ticks over lags; random values down to -110",
        make: scalars::exp,
    },
    Kind {
        name: "log",
        layout: "f, f its logarithm",
        inputs: "all exponents and signs, subnormals, 0.75 and 1.5 times each power of two and 1 with their \
                 neighbours, infinities, NaNs; random positive values and values from 0 to 1",
        make: scalars::log,
    },
    Kind {
        name: "max_zero",
        layout: "f, f max(it, 0)",
        inputs: "all exponents and signs, subnormals, infinities, NaNs; random bits",
        make: scalars::max_zero,
    },
    Kind {
        name: "min",
        layout: "f, f, f the smaller",
        inputs: "pairs of edges, all exponents against neighbours, opposites, edges and random bits; zeros of \
                 unlike sign do not meet, as 01 leaves them open",
        make: scalars::min,
    },
    Kind {
        name: "finite",
        layout: "f, w 1 if it is finite, else 0",
        inputs: "all exponents and signs, subnormals, infinities, NaNs; random bits",
        make: scalars::finite,
    },
    Kind {
        name: "half",
        layout: "w index, f half(index)",
        inputs: "every index that an elapsed time of up to 4,096 s reaches, and some more",
        make: |_| sweep::half(),
    },
    Kind {
        name: "sweep",
        layout: "before the tick: f amplitude, f washout_tc_s, w edge, f next edge, w high, f washout; \
                 the tick: f dt, f elapsed after it; \
                 after it: w edge, f next edge, w high, f washout, f offset",
        inputs: "sweeps tick after tick, dt from the least value to 4,096 s, up to all edges in one tick, ticks \
                 just up to an edge; amplitude and time constant up to their limits",
        make: sweep::sweep,
    },
    Kind {
        name: "window_patterns",
        layout: "16 bits (place k from the lowest is 1 where reading k is bad), then bytes: readings, held, \
                 warm, rows",
        inputs: "every pattern of bad readings up to length 14",
        make: |_| window::patterns(),
    },
    Kind {
        name: "window_around",
        layout: "bytes: good readings before, length of the pattern, pattern (place k from the lowest is 1 \
                 where reading k is bad), good readings after, held, warm, rows, 0",
        inputs: "every pattern up to length 8 between stretches of good readings",
        make: |_| window::around(),
    },
    Kind {
        name: "windows",
        layout: "w ticks; each f dt, f rate, f moment, f offset; w stored, w held, w warm, w rows, f window \
                 duration; each stored f rate, f moment, f offset, w mark",
        inputs: "random readings, from all bad to all good; one of more than 2,048 ticks",
        make: window::windows,
    },
    Kind {
        name: "ties",
        layout: "f share, w entries present (place k from the lowest is entry k + 1), 21 times f effect and f \
                 residual, w position or 0",
        inputs: "M4 to M9, every list of up to two entries over a few effects and residuals, then ties, residuals around the bar to the last bit, infinities, NaNs, effects of \
                 both signs",
        make: fits::ties,
    },
    Kind {
        name: "sums",
        layout: "w stored; each f rate, f moment, w mark; w rows; for d = 1 to 10: 36 f normal matrix, column \
                 after column, 6 f projected, f squared targets",
        inputs: "windows that lists leave",
        make: fits::sums,
    },
    Kind {
        name: "solve",
        layout: "36 f normal matrix, column after column, of which the upper half is not read, 6 f projected, \
                 f squared targets; w 1 for a fit, else 0; 6 f solution, f residual",
        inputs: "sums of windows that lists leave, of which a quarter are spoiled in one entry and a quarter \
                 are random sums instead; random sums with a finite solution whose difference before max is \
                 NaN or infinite, 20 of each",
        make: fits::solve,
    },
    Kind {
        name: "recorded",
        layout: "w stored; each f rate, f moment, w mark; f window duration; w 1 for a fit, else 0; w d; \
                 f two rate weights, three moment weights, dt_s; f root of residual over rows; \
                 w answer: 0 integrated, 1 done, 2 Unexcited, 3 Saturated",
        inputs: "windows that lists leave, as many of each answer",
        make: fits::recorded,
    },
    Kind {
        name: "poles",
        layout: "f dt_s, 129 f poles, carry as f64 bits (8 bytes)",
        inputs: "ticks from the least value to 4,096 s",
        make: fits::poles,
    },
    Kind {
        name: "lagged",
        layout: "f pole, 16 f moments, 16 f lagged",
        inputs: "poles from 0 to 1, moments of many sizes",
        make: fits::lagged,
    },
    Kind {
        name: "gain",
        layout: "w stored, w step, carry as f64 bits (8 bytes); each f rate, f lagged; w 1 for a fit, else 0; \
                 f gain, f residual",
        inputs: "windows that lists leave, with a random pole of the grid and a random step; 20 more whose \
                 narrowed gain is infinite, and 20 whose difference before max is NaN",
        make: fits::gain,
    },
    Kind {
        name: "grid",
        layout: "w stored, f dt_s; each f rate, f moment; for each of 20 steps: w 1 for a candidate, else 0; \
                 f pole, low end, high end, gain, residual",
        inputs: "windows that enter the integrated fit, of which a third are cut to 13 or 14 samples",
        make: fits::grid,
    },
    Kind {
        name: "integrated",
        layout: "w stored, f window duration; each f rate, f moment; w 1 for a model, else 0; w step; w d; \
                 f two rate weights, three moment weights, dt_s; w gain fits",
        inputs: "windows that lists leave: cut to 12, 13 and 14 samples, too few samples, no position, whole \
                 and half steps, refinements that end early",
        make: fits::integrated,
    },
    Kind {
        name: "units",
        layout: "36 bytes of a report; w 1 for a lag and an acceleration, else 0; f lag_s, f accel_radps2",
        inputs: "reports that lists leave, some of each ending; reports of any kind and of odd models, as many \
                 of each family",
        make: units::units,
    },
];

/// The layout of the files of whole byte runs.
pub const RUNS_LAYOUT: &str = "w length of the configuration, of the calls and of the output; configuration; \
    calls; w result; output after the run (before it byte k is 31·k + 165 mod 256)";
