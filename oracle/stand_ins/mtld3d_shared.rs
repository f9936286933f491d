//! Stands in for the crate `mtld3d_shared`, of which pixel conversion calls `ftol::ftol` alone:
//! a whole-valued float gives that integer, and NaN gives a number outside 0..255.

pub mod ftol {
    /// The caller hands in whole numbers from 0 to 255, or NaN, and takes what is no byte as 0.
    #[must_use]
    pub fn ftol(value: f64) -> i32 {
        if value.is_nan() {
            i32::MIN
        } else {
            value as i32
        }
    }
}
