//! Holds the stand-ins for libm against the real one, value by value, and shows what the real one
//! would do to the answers of lists.

// The real libm, as build.rs compiles it.
#[cfg(real_libm)]
extern crate real;

#[cfg(real_libm)]
mod answers;
#[cfg(real_libm)]
mod distance;
#[cfg(real_libm)]
mod values;

use std::process::ExitCode;

#[cfg(not(real_libm))]
fn main() -> ExitCode {
    eprintln!(
        "real_libm: built without libm: install librust-libm-dev or set LIBM, and build again"
    );
    ExitCode::from(2)
}

#[cfg(real_libm)]
const USAGE: &str = "\
usage: real_libm log | exp | root
       real_libm lists [--seed S] [--count N]
log    every f32 between 0 and 1
exp    every f32 from -104 to 0
root   every f32 from 0 to infinity
lists  N lists of seed S through the reference, with each function's stand-in and with the real one";

#[cfg(real_libm)]
fn main() -> ExitCode {
    match run() {
        Ok(()) => ExitCode::SUCCESS,
        Err(message) => {
            eprintln!("{message}");
            ExitCode::from(2)
        }
    }
}

#[cfg(real_libm)]
fn run() -> Result<(), String> {
    let mut words = std::env::args().skip(1);
    match words.next().as_deref() {
        Some("log") => values::log().print("log of every f32 between 0 and 1"),
        Some("exp") => values::exp().print("exp of every f32 from -104 to 0"),
        Some("root") => values::root().print("root of every f32 from 0 to infinity"),
        Some("lists") => {
            let (mut seed, mut count) = (1, 10_000);
            while let Some(word) = words.next() {
                let number = words.next().and_then(|text| text.parse().ok());
                match (word.as_str(), number) {
                    ("--seed", Some(number)) => seed = number,
                    ("--count", Some(number)) => count = number,
                    _ => return Err(USAGE.to_string()),
                }
            }
            answers::print(seed, count);
        }
        _ => return Err(USAGE.to_string()),
    }
    Ok(())
}
