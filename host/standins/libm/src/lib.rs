//! What identify.rs takes from `libm`, as documents 01 and 02 define it.

/// The nearest f32 to the exact root.
pub fn sqrtf(value: f32) -> f32 {
    float::root(value)
}

/// e to the `x`, for `x` at most 0.
pub fn expf(x: f32) -> f32 {
    #[cfg(feature = "replaceable")]
    if let Some(exp) = replaced::EXP.get() {
        return exp(x);
    }
    float::exp(x)
}

/// The logarithm of a positive value.
pub fn logf(value: f32) -> f32 {
    #[cfg(feature = "replaceable")]
    if let Some(log) = replaced::LOG.get() {
        return log(value);
    }
    float::log(value)
}

/// Named by a function that document 01 does not take.
pub fn cosf(_: f32) -> f32 {
    unreachable!("RateModel::response is not part of document 01")
}

/// Named by a function that document 01 does not take.
pub fn sinf(_: f32) -> f32 {
    unreachable!("RateModel::response is not part of document 01")
}

/// Other functions in the stand-ins' places, on one thread.
#[cfg(feature = "replaceable")]
pub mod replaced {
    use std::cell::Cell;

    type Function = fn(f32) -> f32;

    thread_local! {
        pub(crate) static EXP: Cell<Option<Function>> = const { Cell::new(None) };
        pub(crate) static LOG: Cell<Option<Function>> = const { Cell::new(None) };
    }

    /// Does `work` with this `exp`.
    pub fn with_exp<T>(exp: Function, work: impl FnOnce() -> T) -> T {
        EXP.set(Some(exp));
        let answer = work();
        EXP.set(None);
        answer
    }

    /// Does `work` with this `log`.
    pub fn with_log<T>(log: Function, work: impl FnOnce() -> T) -> T {
        LOG.set(Some(log));
        let answer = work();
        LOG.set(None);
        answer
    }
}
