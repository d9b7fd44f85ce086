//! Reads identify.rs, math.rs and controllers/mod.rs of a stable-flight checkout, makes the
//! changes listed here, and writes the result to OUT_DIR, where lib.rs includes it.
//!
//! The checkout is the folder that the environment variable STABLE_FLIGHT names, the one that
//! holds crates/. A relative path is seen from the project's root, the parent of host/.

use std::env;
use std::fs;
use std::path::{Path, PathBuf};

const DEFAULT_CHECKOUT: &str = "../shared/docs/src";

/// The commit that the answers are those of, and a sum of each file (FNV-1a, 64 bits).
const COMMIT: &str = "110781c7ef";
const IDENTIFY: (&str, u64) = ("tuning/identify.rs", 0x85bc_c7d6_c92f_74bc);
const MATH: (&str, u64) = ("math.rs", 0x9e86_0cba_02ad_51c7);
const CONTROLLERS: (&str, u64) = ("controllers/mod.rs", 0xef37_48aa_d1e9_b78d);

/// A text that occurs exactly once, and what stands in its place.
struct Change {
    from: &'static str,
    to: &'static str,
}

/// All changes to identify.rs, besides the inner documentation at its head, which is dropped. They
/// are made in order: a later one may change what an earlier one wrote.
const IDENTIFY_CHANGES: [Change; 12] = [
    // The tests are not part of the checkout's source.
    Change {
        from: "#[cfg(test)]\nmod tests;\n",
        to: "",
    },
    // 01's max(v, 0) for Rust's: +0 for -0 too. The difference before it gets a name.
    Change {
        from: "        let residual = (self.target_squared - solution.dot(&self.projected)).max(0.0);\n",
        to: "        let difference = self.target_squared - solution.dot(&self.projected);\n        let residual = float::max_zero(difference);\n",
    },
    Change {
        from: "    let residual = (stt - gain * smt - trim * sct).max(0.0);\n",
        to: "    let difference = stt - gain * smt - trim * sct;\n    let residual = float::max_zero_f64(difference);\n",
    },
    // 02's request four: a recorded fit whose difference before max is NaN is none.
    Change {
        from: "        let residual = float::max_zero(difference);\n",
        to: "        if access::tests_of_four() && difference.is_nan() {\n            return None;\n        }\n        let residual = float::max_zero(difference);\n",
    },
    // 02's request four: a gain fit whose difference before max is NaN, or whose narrowed gain is
    // not finite, is none.
    Change {
        from: "    let residual = float::max_zero_f64(difference);\n",
        to: "    if access::tests_of_four() && (difference.is_nan() || !float::narrow(gain).is_finite()) {\n        return None;\n    }\n    let residual = float::max_zero_f64(difference);\n",
    },
    // 01's narrowing for Rust's.
    Change {
        from: "gain: gain as f32,",
        to: "gain: float::narrow(gain),",
    },
    Change {
        from: "residual: residual as f32,",
        to: "residual: float::narrow(residual),",
    },
    // 01's min for Rust's.
    Change {
        from: ".reduce(f32::min)",
        to: ".reduce(float::min)",
    },
    // Each gain fit made counts one.
    Change {
        from: "    let [now, next] = delay.split().map(f64::from);\n",
        to: "    access::count_gain_fit();\n    let [now, next] = delay.split().map(f64::from);\n",
    },
    // What the grid keeps, the step of the integrated fit, and the sums of a classification are noted.
    Change {
        from: "    let effects = best.map(|fit| fit.map(|fit| (fit.gain, fit.residual)));\n",
        to: "    access::note_grid(&best);\n    let effects = best.map(|fit| fit.map(|fit| (fit.gain, fit.residual)));\n",
    },
    Change {
        from: "    let delay = Delay::at(step);\n",
        to: "    access::note_step(step);\n    let delay = Delay::at(step);\n",
    },
    Change {
        from: "        let dt_s = self.rows_dt_s / self.rows.max(1) as f32;\n",
        to: "        access::note_sums(self);\n        let dt_s = self.rows_dt_s / self.rows.max(1) as f32;\n",
    },
];

/// What is taken from math.rs: the items that begin with these lines.
const MATH_ITEMS: [&str; 2] = [
    "#[track_caller]\npub(crate) fn assert_dt(",
    "pub(crate) fn lagged(",
];

/// All changes to the items of math.rs.
const MATH_CHANGES: [Change; 1] = [
    // 01's min for Rust's.
    Change {
        from: "(dt / time_constant_s).min(1.0)",
        to: "float::min(dt / time_constant_s, 1.0)",
    },
];

/// What is taken from controllers/mod.rs, unchanged: the items that begin with these lines.
const CONTROLLERS_ITEMS: [&str; 6] = [
    "#[derive(Clone, Copy, Debug, PartialEq, Eq)]\n#[non_exhaustive]\npub struct InvalidConfig {",
    "impl InvalidConfig {",
    "impl fmt::Display for InvalidConfig {",
    "pub(crate) fn check_positive(",
    "pub(crate) fn check(",
    "use core::fmt;",
];

fn main() {
    println!("cargo::rerun-if-env-changed=STABLE_FLIGHT");
    println!("cargo::rerun-if-changed=build.rs");
    let checkout = checkout();
    let identify = without_inner_docs(&read(&checkout, IDENTIFY), IDENTIFY);
    write(
        "identify.rs",
        &changed(&identify, IDENTIFY, &IDENTIFY_CHANGES),
    );
    let math = items(&read(&checkout, MATH), MATH, &MATH_ITEMS);
    write("math.rs", &changed(&math, MATH, &MATH_CHANGES));
    let controllers = read(&checkout, CONTROLLERS);
    write(
        "controllers.rs",
        &items(&controllers, CONTROLLERS, &CONTROLLERS_ITEMS),
    );
}

/// The folder that holds crates/.
fn checkout() -> PathBuf {
    let manifest = PathBuf::from(env::var_os("CARGO_MANIFEST_DIR").expect("cargo sets it"));
    let root = manifest
        .ancestors()
        .nth(2)
        .expect("host/reference is in the project");
    let given = env::var_os("STABLE_FLIGHT").unwrap_or_else(|| DEFAULT_CHECKOUT.into());
    let checkout = root.join(given);
    if !checkout.join("crates/stable-flight/src").is_dir() {
        fail(&format!(
            "no checkout of stable-flight at {}: set STABLE_FLIGHT to the folder that holds its crates/ (commit {COMMIT})",
            checkout.display()
        ));
    }
    checkout
}

fn read(checkout: &Path, (name, sum): (&str, u64)) -> String {
    let path = checkout.join("crates/stable-flight/src").join(name);
    println!("cargo::rerun-if-changed={}", path.display());
    let text = fs::read_to_string(&path)
        .unwrap_or_else(|error| fail(&format!("cannot read {}: {error}", path.display())));
    let found = text.bytes().fold(0xcbf2_9ce4_8422_2325, |sum: u64, byte| {
        (sum ^ u64::from(byte)).wrapping_mul(0x0000_0100_0000_01b3)
    });
    if found != sum {
        println!("cargo::warning={name} is not that of {COMMIT} (its sum is {found:#018x})");
    }
    text
}

/// `text` without the inner documentation at its head, which an included file cannot have.
fn without_inner_docs(text: &str, (name, _): (&str, u64)) -> String {
    if !text.starts_with("//!") {
        fail(&format!("{name}: expected inner documentation at its head"));
    }
    text.lines()
        .skip_while(|line| line.starts_with("//!"))
        .flat_map(|line| [line, "\n"])
        .collect()
}

/// `text` with each of `changes` made, each at its one place.
fn changed(text: &str, (name, _): (&str, u64), changes: &[Change]) -> String {
    let mut text = text.to_string();
    for change in changes {
        once(&text, name, change.from);
        text = text.replace(change.from, change.to);
    }
    text
}

/// The items of `text` that begin with `starts`: to the first line that closes a block at the
/// margin, or to the end of the line where the item is one line.
fn items(text: &str, (name, _): (&str, u64), starts: &[&str]) -> String {
    let mut taken = String::new();
    for start in starts {
        let begin = once(text, name, start);
        let close = if start.ends_with(';') { "\n" } else { "\n}\n" };
        let Some(length) = text[begin..].find(close) else {
            fail(&format!(
                "{name}: the item that begins with {start:?} has no end"
            ));
        };
        taken.push_str(&text[begin..begin + length + close.len()]);
    }
    taken
}

/// Where `part` is in `text`, exactly once.
fn once(text: &str, name: &str, part: &str) -> usize {
    let count = text.matches(part).count();
    if count != 1 {
        fail(&format!(
            "{name}: expected this text once, found it {count} times: {part:?}"
        ));
    }
    text.find(part).expect("counted above")
}

fn write(name: &str, text: &str) {
    let path = PathBuf::from(env::var_os("OUT_DIR").expect("cargo sets it")).join(name);
    fs::write(&path, text)
        .unwrap_or_else(|error| fail(&format!("cannot write {}: {error}", path.display())));
}

fn fail(message: &str) -> ! {
    println!("cargo::error={message}");
    std::process::exit(1);
}
