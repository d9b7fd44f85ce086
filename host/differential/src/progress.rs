//! A progress line, every two seconds.

use std::io::Write;
use std::time::{Duration, Instant};

pub struct Progress {
    start: Instant,
    shown: Instant,
}

impl Default for Progress {
    fn default() -> Progress {
        let start = Instant::now();
        Progress {
            start,
            shown: start,
        }
    }
}

impl Progress {
    /// Shows what has been done so far, where the last line is old enough.
    pub fn show(&mut self, done: impl FnOnce() -> String) {
        if self.shown.elapsed() > Duration::from_secs(2) {
            self.shown = Instant::now();
            eprint!("\r{}, {} s ", done(), self.start.elapsed().as_secs());
            std::io::stderr().flush().ok();
        }
    }

    /// The seconds since the start.
    pub fn seconds(&self) -> f64 {
        self.start.elapsed().as_secs_f64()
    }
}
