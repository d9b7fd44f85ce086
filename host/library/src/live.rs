//! A probe that its caller keeps and steps tick by tick.

/// The most samples that a probe keeps.
pub const WINDOW: usize = 2_048;

/// A probe's parts, in C's order. Any bytes are a probe.
#[derive(Clone)]
#[repr(C)]
pub struct LiveProbe {
    /// Kind, half ticks, ticks, stored, gain fits, extension flag, edge, high.
    pub words: [u32; 8],
    /// duration_s; the extension's amplitude and duration; the sweep's amplitude, washout_tc_s, next
    /// edge in s and washout; the window's duration; two rate weights, three moment weights, dt_s.
    pub floats: [f32; 14],
    pub rates: [f32; WINDOW],
    pub moments: [f32; WINDOW],
    pub offsets: [f32; WINDOW],
    /// 0 for a good sample.
    pub held: [u8; WINDOW],
    /// Not 0 where the probe was opened as steady; of a pair the first probe's is that of both.
    pub steady: u32,
    /// The first accepted dt of a steady probe, not above 0 while there is none.
    pub first_dt_s: f32,
}

impl LiveProbe {
    /// Its length in bytes.
    pub const LEN: usize = 26_720;

    /// The bytes before the window's arrays.
    pub const SCALARS: usize = 88;

    pub const ZERO: LiveProbe = LiveProbe {
        words: [0; 8],
        floats: [0.0; 14],
        rates: [0.0; WINDOW],
        moments: [0.0; WINDOW],
        offsets: [0.0; WINDOW],
        held: [0; WINDOW],
        steady: 0,
        first_dt_s: 0.0,
    };

    // SAFETY, of both: the parts fill the length, so no byte is padding, and any bytes are numbers.

    pub fn bytes(&self) -> &[u8; LiveProbe::LEN] {
        unsafe { &*std::ptr::from_ref(self).cast() }
    }

    pub fn bytes_mut(&mut self) -> &mut [u8; LiveProbe::LEN] {
        unsafe { &mut *std::ptr::from_mut(self).cast() }
    }

    /// Takes the bytes of another.
    pub fn copy_from(&mut self, other: &LiveProbe) {
        self.bytes_mut().copy_from_slice(other.bytes());
    }

    /// Makes each mark 0 or 1.
    pub fn make_marks_plain(&mut self) {
        for mark in &mut self.held {
            *mark = u8::from(*mark != 0);
        }
    }
}

const _: () = assert!(size_of::<LiveProbe>() == LiveProbe::LEN);
const _: () = assert!(std::mem::offset_of!(LiveProbe, rates) == LiveProbe::SCALARS);

/// The status of a probe.
#[derive(Clone, Copy, Debug, Default)]
pub struct LiveStatus {
    /// Kind, the delay in half ticks, its whole ticks, its half tick, whether there are plain units.
    pub numbers: [u32; 5],
    /// Two rate weights, three moment weights, dt_s (elapsed if running).
    pub floats: [f32; 6],
    /// lag_s and the acceleration.
    pub plain: [f32; 2],
}

/// The live functions.
#[derive(Clone, Copy)]
pub struct Live {
    /// Opens a probe by the six words of a byte run's configuration, and options; it answers 0 or a
    /// rule's number.
    pub open: fn(&mut LiveProbe, &[u32; 6], u32) -> u32,
    /// Makes the marks plain before a call of this dt that reads them.
    pub ready: fn(&mut LiveProbe, f32),
    /// `ready`, and a step: dt, rate, moment, the offset's place; it answers 0 or a rule's number.
    pub step: fn(&mut LiveProbe, [f32; 3], &mut f32) -> u32,
    pub status: fn(&LiveProbe) -> LiveStatus,
    /// Writes the byte run's report, 36 bytes, to the front of an output; nothing where it is shorter.
    pub report: fn(&LiveProbe, &mut [u8]),
}

#[cfg(not(identify_lib))]
pub const LIVE: Option<Live> = None;

#[cfg(identify_lib)]
pub const LIVE: Option<Live> = Some(Live {
    open: linked::open,
    ready: linked::ready,
    step: linked::step,
    status: linked::status,
    report: linked::report,
});

#[cfg(identify_lib)]
mod linked {
    use super::{LiveProbe, LiveStatus};

    unsafe extern "C" {
        fn identify_live_open(
            words: *mut u32,
            floats: *mut f32,
            steady: *mut u32,
            first_dt_s: *mut f32,
            amplitude: f32,
            duration_s: f32,
            washout_tc_s: f32,
            extension: u32,
            extension_amplitude: f32,
            extension_duration_s: f32,
            options: u32,
        ) -> u32;

        fn identify_live_ready(
            words: *const u32,
            floats: *const f32,
            steady: u32,
            first_dt_s: f32,
            held: *mut u8,
            dt: f32,
        );

        fn identify_live_step(
            words: *mut u32,
            floats: *mut f32,
            steady: u32,
            first_dt_s: *mut f32,
            rates: *mut f32,
            moments: *mut f32,
            offsets: *mut f32,
            held: *mut u8,
            dt: f32,
            rate: f32,
            moment: f32,
            offset: *mut f32,
        ) -> u32;

        fn identify_live_status(
            words: *const u32,
            floats: *const f32,
            numbers: *mut u32,
            model: *mut f32,
            plain: *mut f32,
        );

        fn identify_live_report(
            words: *const u32,
            floats: *const f32,
            rates: *const f32,
            held: *const u8,
            output: *mut u8,
            output_len: usize,
        );
    }

    // SAFETY, of all: each pointer is that of a part with the length that the function takes, and
    // what a function writes is lent to this call alone. A step's marks are made plain before it.

    pub fn open(probe: &mut LiveProbe, config: &[u32; 6], options: u32) -> u32 {
        let [amplitude, duration_s, washout_tc_s, extension, rest @ ..] = *config;
        let [extension_amplitude, extension_duration_s] = rest.map(f32::from_bits);
        unsafe {
            identify_live_open(
                probe.words.as_mut_ptr(),
                probe.floats.as_mut_ptr(),
                &mut probe.steady,
                &mut probe.first_dt_s,
                f32::from_bits(amplitude),
                f32::from_bits(duration_s),
                f32::from_bits(washout_tc_s),
                extension,
                extension_amplitude,
                extension_duration_s,
                options,
            )
        }
    }

    pub fn ready(probe: &mut LiveProbe, dt: f32) {
        unsafe {
            identify_live_ready(
                probe.words.as_ptr(),
                probe.floats.as_ptr(),
                probe.steady,
                probe.first_dt_s,
                probe.held.as_mut_ptr(),
                dt,
            );
        }
    }

    pub fn step(probe: &mut LiveProbe, [dt, rate, moment]: [f32; 3], offset: &mut f32) -> u32 {
        ready(probe, dt);
        unsafe {
            identify_live_step(
                probe.words.as_mut_ptr(),
                probe.floats.as_mut_ptr(),
                probe.steady,
                &mut probe.first_dt_s,
                probe.rates.as_mut_ptr(),
                probe.moments.as_mut_ptr(),
                probe.offsets.as_mut_ptr(),
                probe.held.as_mut_ptr(),
                dt,
                rate,
                moment,
                offset,
            )
        }
    }

    pub fn status(probe: &LiveProbe) -> LiveStatus {
        let mut status = LiveStatus::default();
        unsafe {
            identify_live_status(
                probe.words.as_ptr(),
                probe.floats.as_ptr(),
                status.numbers.as_mut_ptr(),
                status.floats.as_mut_ptr(),
                status.plain.as_mut_ptr(),
            );
        }
        status
    }

    pub fn report(probe: &LiveProbe, output: &mut [u8]) {
        unsafe {
            identify_live_report(
                probe.words.as_ptr(),
                probe.floats.as_ptr(),
                probe.rates.as_ptr(),
                probe.held.as_ptr(),
                output.as_mut_ptr(),
                output.len(),
            );
        }
    }
}
