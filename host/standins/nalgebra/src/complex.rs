//! Complex numbers, named by `RateModel::response` alone, which document 01 does not take:
//! here so that the file compiles.

use std::ops::{Add, Div, Mul, Sub};

/// A complex number.
#[derive(Clone, Copy, Debug, PartialEq)]
pub struct Complex<T> {
    pub re: T,
    pub im: T,
}

impl Complex<f32> {
    pub fn new(re: f32, im: f32) -> Self {
        Complex { re, im }
    }

    pub fn powu(self, _: u32) -> Self {
        not_taken()
    }
}

impl Add for Complex<f32> {
    type Output = Self;

    fn add(self, _: Self) -> Self {
        not_taken()
    }
}

impl Sub for Complex<f32> {
    type Output = Self;

    fn sub(self, _: Self) -> Self {
        not_taken()
    }
}

impl Mul for Complex<f32> {
    type Output = Self;

    fn mul(self, _: Self) -> Self {
        not_taken()
    }
}

impl Mul<f32> for Complex<f32> {
    type Output = Self;

    fn mul(self, _: f32) -> Self {
        not_taken()
    }
}

impl Div for Complex<f32> {
    type Output = Self;

    fn div(self, _: Self) -> Self {
        not_taken()
    }
}

fn not_taken() -> ! {
    unreachable!("RateModel::response is not part of document 01")
}
