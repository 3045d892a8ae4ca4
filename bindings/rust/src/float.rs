//! Floats: magnitudes, choices, widths and roots, of every float.
use crate::ffi;

/// |x|: the sign cleared.
pub fn abs(x: f32) -> f32 {
    ffi::purdolve_abs(x)
}

/// |x| of an f64.
pub fn abs_f64(x: f64) -> f64 {
    ffi::purdolve_abs_f64(x)
}

/// `b` where a < b or `a` is NaN, else `a`.
pub fn max(a: f32, b: f32) -> f32 {
    ffi::purdolve_max(a, b)
}

/// `b` where b < a or `a` is NaN, else `a`.
pub fn min(a: f32, b: f32) -> f32 {
    ffi::purdolve_min(a, b)
}

/// `x` held to the range from `lo` to `hi`; a NaN is left.
pub fn clamp(x: f32, lo: f32, hi: f32) -> f32 {
    ffi::purdolve_clamp(x, lo, hi)
}

/// The same value as an f64.
pub fn widen(x: f32) -> f64 {
    ffi::purdolve_widen(x)
}

/// The nearest f32, a tie to the one whose last digit is even.
pub fn narrow(x: f64) -> f32 {
    ffi::purdolve_narrow(x)
}

/// The square root: the nearest float.
pub fn sqrt(x: f32) -> f32 {
    ffi::purdolve_sqrt(x)
}

/// The cube root: the nearest float.
///
/// ```
/// assert_eq!(purdolve::float::cbrt(27.0), 3.0);
/// ```
pub fn cbrt(x: f32) -> f32 {
    ffi::purdolve_cbrt(x)
}
