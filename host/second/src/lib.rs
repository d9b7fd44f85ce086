//! A second program written from documents 01 and 02 alone, for holding against the reference. It
//! shares no code with it: root and narrowing are the hardware's, the window is a list, and
//! what a fit can know before its loops is made before them.

mod fits;
mod probe;
mod two_axis;
mod units;

use probe::Probe;
pub use probe::live::LIVE;
pub use two_axis::{LIVE_PAIR, two_axis_run};
pub use units::plain_units;

/// Document 01's byte run.
pub fn byte_run(config: &[u8], calls: &[u8], output: &mut [u8]) -> u32 {
    let count = calls.len() / 12;
    if config.len() != 24 || calls.len() != 12 * count || output.len() < 36 + 4 * count {
        return 9;
    }
    let made = Probe::configured(&std::array::from_fn(|n| word(config, n)));
    let mut probe = match made {
        Ok(probe) => probe,
        Err(number) => return number,
    };
    for n in 0..count {
        let call = &calls[12 * n..];
        let answer = match probe.step(number(call, 0), number(call, 1), number(call, 2)) {
            Ok(offset) => bits(offset),
            Err(number) => 0x7fc0_0000 + number,
        };
        output[36 + 4 * n..40 + 4 * n].copy_from_slice(&answer.to_be_bytes());
    }
    output[..36].copy_from_slice(&probe.report());
    0
}

/// The 32-bit field n.
fn word(bytes: &[u8], n: usize) -> u32 {
    u32::from_be_bytes([
        bytes[4 * n],
        bytes[4 * n + 1],
        bytes[4 * n + 2],
        bytes[4 * n + 3],
    ])
}

fn number(bytes: &[u8], n: usize) -> f32 {
    f32::from_bits(word(bytes, n))
}

/// The bits of a float, every NaN's the same; tested on bits that the compiler cannot see
/// through, as it takes one NaN for another.
fn bits(value: f32) -> u32 {
    let bits = std::hint::black_box(value.to_bits());
    if bits << 1 > 0xff00_0000 {
        0x7fc0_0000
    } else {
        bits
    }
}
