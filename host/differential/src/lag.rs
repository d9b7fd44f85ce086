//! The kinds of lag and acceleration that a run counts.

use std::fmt;

use reference::plain_units::PlainUnits;

#[derive(Clone, Copy, Debug, PartialEq, Eq, PartialOrd, Ord)]
pub enum Lag {
    /// Neither lag nor acceleration.
    Neither,
    Zero,
    Positive,
    Infinite,
    /// -0 too.
    Negative,
    Nan,
}

impl Lag {
    /// The kind of a done model's lag.
    pub fn of(units: Option<PlainUnits>) -> Lag {
        match units.map(|units| units.lag_s) {
            None => Lag::Neither,
            Some(lag_s) if lag_s.is_nan() => Lag::Nan,
            Some(lag_s) if lag_s.is_sign_negative() => Lag::Negative,
            Some(0.0) => Lag::Zero,
            Some(f32::INFINITY) => Lag::Infinite,
            Some(_) => Lag::Positive,
        }
    }
}

impl fmt::Display for Lag {
    fn fmt(&self, to: &mut fmt::Formatter) -> fmt::Result {
        to.pad(match self {
            Lag::Neither => "neither",
            Lag::Zero => "lag 0",
            Lag::Positive => "lag positive",
            Lag::Infinite => "lag infinite",
            Lag::Negative => "lag negative",
            Lag::Nan => "lag NaN",
        })
    }
}

#[derive(Clone, Copy, Debug, PartialEq, Eq, PartialOrd, Ord)]
pub enum Acceleration {
    Nan,
    Infinite,
    MinusZero,
    Zero,
    Other,
}

impl Acceleration {
    pub fn of(accel_radps2: f32) -> Acceleration {
        match accel_radps2 {
            value if value.is_nan() => Acceleration::Nan,
            value if value.is_infinite() => Acceleration::Infinite,
            value if value != 0.0 => Acceleration::Other,
            value if value.is_sign_negative() => Acceleration::MinusZero,
            _ => Acceleration::Zero,
        }
    }
}

impl fmt::Display for Acceleration {
    fn fmt(&self, to: &mut fmt::Formatter) -> fmt::Result {
        to.pad(match self {
            Acceleration::Nan => "NaN",
            Acceleration::Infinite => "infinite",
            Acceleration::MinusZero => "-0",
            Acceleration::Zero => "0",
            Acceleration::Other => "other",
        })
    }
}
