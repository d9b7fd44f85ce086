//! How far apart two functions are.

/// The distance of two numbers in units in the last place; none where one is a NaN and the other
/// is not.
pub fn units(a: f32, b: f32) -> Option<u32> {
    // Ordered as the floats are, both zeros alike.
    let place = |value: f32| {
        let magnitude = (value.to_bits() & 0x7fff_ffff) as i32;
        if value.is_sign_negative() {
            -magnitude
        } else {
            magnitude
        }
    };
    match (a.is_nan(), b.is_nan()) {
        (false, false) => Some(place(a).abs_diff(place(b))),
        (true, true) => Some(0),
        _ => None,
    }
}

/// What was seen of two functions.
#[derive(Default)]
pub struct Distances {
    pub values: u64,
    pub differ: u64,
    /// The greatest distance, and the argument's bits.
    pub most: u32,
    pub at: u32,
}

impl Distances {
    /// Adds both answers to the argument of these bits.
    pub fn add(&mut self, bits: u32, standin: f32, real: f32) {
        self.values += 1;
        let units = units(standin, real)
            .unwrap_or_else(|| panic!("only one is a NaN: {standin} and {real} of {bits:08X}"));
        self.differ += u64::from(units > 0);
        if units > self.most {
            (self.most, self.at) = (units, bits);
        }
    }

    pub fn print(&self, what: &str) {
        let Distances {
            values,
            differ,
            most,
            at,
        } = self;
        println!("{what}: {values} values");
        println!(
            "  {differ} differ, {:.4} %",
            100.0 * *differ as f64 / (*values).max(1) as f64
        );
        if *differ > 0 {
            println!("  by {most} units in the last place at most, first at {at:08X}");
        }
    }
}
