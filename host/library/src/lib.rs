//! The proved static library, where the environment variable IDENTIFY_LIB named it during the
//! build.

mod live;
mod pair;

pub use live::{LIVE, Live, LiveProbe, LiveStatus, WINDOW};
pub use pair::{LIVE_PAIR, LivePair, PAIR_REPORT_LEN, TWO_AXIS_RUN};

/// A byte run: configuration, calls, output; it answers 0 or a rule's number.
pub type ByteRun = fn(&[u8], &[u8], &mut [u8]) -> u32;

/// The plain units: report, output; it answers 0, or 9 for wrong sizes.
pub type PlainUnits = fn(&[u8], &mut [u8]) -> u32;

#[cfg(not(identify_lib))]
pub const BYTE_RUN: Option<ByteRun> = None;
#[cfg(not(identify_lib))]
pub const PLAIN_UNITS: Option<PlainUnits> = None;

#[cfg(identify_lib)]
pub const BYTE_RUN: Option<ByteRun> = Some(linked::byte_run);
#[cfg(identify_lib)]
pub const PLAIN_UNITS: Option<PlainUnits> = Some(linked::plain_units);

#[cfg(identify_lib)]
mod linked {
    unsafe extern "C" {
        fn identify_byte_run(
            config: *const u8,
            config_len: usize,
            calls: *const u8,
            calls_len: usize,
            output: *mut u8,
            output_len: usize,
        ) -> u32;

        fn identify_plain_units(
            report: *const u8,
            report_len: usize,
            output: *mut u8,
            output_len: usize,
        ) -> u32;
    }

    // SAFETY, of both: each pointer and length is that of a slice, and the output's is lent to
    // this call alone.

    pub fn byte_run(config: &[u8], calls: &[u8], output: &mut [u8]) -> u32 {
        unsafe {
            identify_byte_run(
                config.as_ptr(),
                config.len(),
                calls.as_ptr(),
                calls.len(),
                output.as_mut_ptr(),
                output.len(),
            )
        }
    }

    pub fn plain_units(report: &[u8], output: &mut [u8]) -> u32 {
        unsafe {
            identify_plain_units(
                report.as_ptr(),
                report.len(),
                output.as_mut_ptr(),
                output.len(),
            )
        }
    }
}
