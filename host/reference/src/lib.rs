//! The reference's answers: identify.rs of stable-flight, compiled from a checkout with the
//! stand-ins of documents 01 and 02 for `nalgebra` and `libm` and the two tests of 02's request
//! four, and 01's byte run over it.
//!
//! build.rs lists every change to the Rust. [`access`] reaches its private parts, [`probe`]
//! puts 01's refusals and report around it, [`byte_run`] is 01's byte run, [`account`] counts
//! apart from it what a list of calls must leave behind, and [`checked`] holds the two
//! together. [`plain_units`] gives 02's lag and acceleration of a report, and [`two_axis`] flies two
//! probes as one. [`steady`] tests each dt before a probe or two.

pub mod account;
pub mod byte_run;
pub mod checked;
pub mod plain_units;
pub mod probe;
pub mod steady;
pub mod two_axis;

pub use tuning::identify::access;

/// The checks of controllers/mod.rs.
#[allow(dead_code)]
mod controllers {
    include!(concat!(env!("OUT_DIR"), "/controllers.rs"));
}

/// `assert_dt` and `lagged` of math.rs.
mod math {
    include!(concat!(env!("OUT_DIR"), "/math.rs"));
}

mod tuning {
    #[allow(dead_code, clippy::all)]
    pub mod identify {
        include!(concat!(env!("OUT_DIR"), "/identify.rs"));

        pub mod access;
    }
}
