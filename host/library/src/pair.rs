//! Two probes that their caller keeps and steps together, one for each axis.

use crate::{LiveProbe, LiveStatus};

/// The length of a pair's report in bytes.
pub const PAIR_REPORT_LEN: usize = 77;

/// The live functions of a pair.
#[derive(Clone, Copy)]
pub struct LivePair {
    /// Opens both probes by the six words of a byte run's configuration, and options; it answers 0 or
    /// a rule's number.
    pub open: fn(&mut [LiveProbe; 2], &[u32; 6], u32) -> u32,
    /// Makes the marks of both plain before a call of this dt that reads them.
    pub ready: fn(&mut [LiveProbe; 2], f32),
    /// `ready`, and a step: dt, two pairs of rate and moment, the offsets' places; it answers 0 or a
    /// rule's number.
    pub step: fn(&mut [LiveProbe; 2], [f32; 5], &mut [f32; 2]) -> u32,
    /// The status of one axis.
    pub status: fn(&LiveProbe) -> LiveStatus,
    /// Writes the byte run's report, 77 bytes, to the front of an output; nothing where it is shorter.
    pub report: fn(&[LiveProbe; 2], &mut [u8]),
}

#[cfg(not(identify_lib))]
pub const LIVE_PAIR: Option<LivePair> = None;

#[cfg(identify_lib)]
pub const LIVE_PAIR: Option<LivePair> = Some(LivePair {
    open: linked::open,
    ready: linked::ready,
    step: linked::step,
    status: linked::status,
    report: linked::report,
});

#[cfg(not(identify_lib))]
pub const TWO_AXIS_RUN: Option<crate::ByteRun> = None;

#[cfg(identify_lib)]
pub const TWO_AXIS_RUN: Option<crate::ByteRun> = Some(linked::two_axis_run);

#[cfg(identify_lib)]
mod linked {
    use crate::{LiveProbe, LiveStatus};

    unsafe extern "C" {
        fn identify_two_axis_run(
            config: *const u8,
            config_len: usize,
            calls: *const u8,
            calls_len: usize,
            output: *mut u8,
            output_len: usize,
        ) -> u32;

        fn identify_live_pair_open(
            words1: *mut u32,
            floats1: *mut f32,
            words2: *mut u32,
            floats2: *mut f32,
            steady: *mut u32,
            first_dt_s: *mut f32,
            amplitude: f32,
            duration_s: f32,
            washout_tc_s: f32,
            extension: u32,
            extension_amplitude: f32,
            extension_duration_s: f32,
            options: u32,
        ) -> u32;

        fn identify_live_pair_ready(
            words1: *const u32,
            floats1: *const f32,
            held1: *mut u8,
            words2: *const u32,
            floats2: *const f32,
            held2: *mut u8,
            steady: u32,
            first_dt_s: f32,
            dt: f32,
        );

        fn identify_live_pair_step(
            words1: *mut u32,
            floats1: *mut f32,
            rates1: *mut f32,
            moments1: *mut f32,
            offsets1: *mut f32,
            held1: *mut u8,
            words2: *mut u32,
            floats2: *mut f32,
            rates2: *mut f32,
            moments2: *mut f32,
            offsets2: *mut f32,
            held2: *mut u8,
            steady: u32,
            first_dt_s: *mut f32,
            dt: f32,
            rate1: f32,
            moment1: f32,
            rate2: f32,
            moment2: f32,
            offset1: *mut f32,
            offset2: *mut f32,
        ) -> u32;

        fn identify_live_pair_status(
            words: *const u32,
            floats: *const f32,
            numbers: *mut u32,
            model: *mut f32,
            plain: *mut f32,
        );

        fn identify_live_pair_report(
            words1: *const u32,
            floats1: *const f32,
            rates1: *const f32,
            held1: *const u8,
            words2: *const u32,
            floats2: *const f32,
            rates2: *const f32,
            held2: *const u8,
            output: *mut u8,
            output_len: usize,
        );
    }

    // SAFETY, of all: each pointer is that of a slice, or of a part with the length that the function
    // takes, and what a function writes is lent to this call alone. A step's marks are made plain
    // before it.

    pub fn two_axis_run(config: &[u8], calls: &[u8], output: &mut [u8]) -> u32 {
        unsafe {
            identify_two_axis_run(
                config.as_ptr(),
                config.len(),
                calls.as_ptr(),
                calls.len(),
                output.as_mut_ptr(),
                output.len(),
            )
        }
    }

    pub fn open(pair: &mut [LiveProbe; 2], config: &[u32; 6], options: u32) -> u32 {
        let [first, second] = pair;
        let [amplitude, duration_s, washout_tc_s, extension, rest @ ..] = *config;
        let [extension_amplitude, extension_duration_s] = rest.map(f32::from_bits);
        unsafe {
            identify_live_pair_open(
                first.words.as_mut_ptr(),
                first.floats.as_mut_ptr(),
                second.words.as_mut_ptr(),
                second.floats.as_mut_ptr(),
                &mut first.steady,
                &mut first.first_dt_s,
                f32::from_bits(amplitude),
                f32::from_bits(duration_s),
                f32::from_bits(washout_tc_s),
                extension,
                extension_amplitude,
                extension_duration_s,
                options,
            )
        }
    }

    pub fn ready(pair: &mut [LiveProbe; 2], dt: f32) {
        let [first, second] = pair;
        unsafe {
            identify_live_pair_ready(
                first.words.as_ptr(),
                first.floats.as_ptr(),
                first.held.as_mut_ptr(),
                second.words.as_ptr(),
                second.floats.as_ptr(),
                second.held.as_mut_ptr(),
                first.steady,
                first.first_dt_s,
                dt,
            );
        }
    }

    pub fn step(pair: &mut [LiveProbe; 2], call: [f32; 5], offsets: &mut [f32; 2]) -> u32 {
        let [dt, rate_1, moment_1, rate_2, moment_2] = call;
        ready(pair, dt);
        let [first, second] = pair;
        let [offset_1, offset_2] = offsets;
        unsafe {
            identify_live_pair_step(
                first.words.as_mut_ptr(),
                first.floats.as_mut_ptr(),
                first.rates.as_mut_ptr(),
                first.moments.as_mut_ptr(),
                first.offsets.as_mut_ptr(),
                first.held.as_mut_ptr(),
                second.words.as_mut_ptr(),
                second.floats.as_mut_ptr(),
                second.rates.as_mut_ptr(),
                second.moments.as_mut_ptr(),
                second.offsets.as_mut_ptr(),
                second.held.as_mut_ptr(),
                first.steady,
                &mut first.first_dt_s,
                dt,
                rate_1,
                moment_1,
                rate_2,
                moment_2,
                offset_1,
                offset_2,
            )
        }
    }

    pub fn status(probe: &LiveProbe) -> LiveStatus {
        let mut status = LiveStatus::default();
        unsafe {
            identify_live_pair_status(
                probe.words.as_ptr(),
                probe.floats.as_ptr(),
                status.numbers.as_mut_ptr(),
                status.floats.as_mut_ptr(),
                status.plain.as_mut_ptr(),
            );
        }
        status
    }

    pub fn report(pair: &[LiveProbe; 2], output: &mut [u8]) {
        let [first, second] = pair;
        unsafe {
            identify_live_pair_report(
                first.words.as_ptr(),
                first.floats.as_ptr(),
                first.rates.as_ptr(),
                first.held.as_ptr(),
                second.words.as_ptr(),
                second.floats.as_ptr(),
                second.rates.as_ptr(),
                second.held.as_ptr(),
                output.as_mut_ptr(),
                output.len(),
            );
        }
    }
}
