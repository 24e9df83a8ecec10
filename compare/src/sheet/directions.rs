//! "Direction of" a vector (document 02, f and g): the Rust's `try_normalize` of the vector times the power of two that brings its largest size
//! to at least 1 and below 2.

use super::Refusal;
use crate::Vec3;

/// The bits of an f64 below its exponent, and what is added to the exponent there.
const FRACTION: u32 = 52;
const BIAS: u64 = 1023;

/// The direction of a vector. Three zeros have none, and neither has a vector with a number that is not finite.
#[inline]
pub fn direction_of(v: Vec3) -> Result<Vec3, Refusal> {
    if has_none(v) {
        return Err(Refusal::Direction);
    }
    scaled(v).try_normalize().ok_or(Refusal::Direction)
}

/// The direction of a vector that has one: each that 22, 23 and 24 make of directions is finite and not zero (document 02, g). Were one not, the
/// Rust would give none here, and the program would end.
#[inline]
pub fn sure_direction(v: Vec3) -> Vec3 {
    scaled(v).try_normalize().expect("what 22, 23 and 24 make of directions has a direction")
}

fn has_none(v: Vec3) -> bool {
    v == Vec3::ZERO || !v.is_finite()
}

/// The vector times the power of two; one that has no direction stays as it is. A product is exact in f64, and is rounded once where it
/// becomes an f32.
#[inline]
pub fn scaled(v: Vec3) -> Vec3 {
    if has_none(v) {
        return v;
    }
    let power = power_for(v.abs().max_element());
    let [x, y, z] = [v.x, v.y, v.z].map(|part| (f64::from(part) * power) as f32);
    Vec3::new(x, y, z)
}

/// The scaled vector times the reciprocal of its length, whatever that is: the direction of a vector that has one.
pub fn direction_unchecked(v: Vec3) -> Vec3 {
    let scaled = scaled(v);
    scaled * scaled.length_recip()
}

/// The power of two whose product with a size is at least 1 and below 2. Subnormal f32 numbers are normal ones in f64, and the power is one
/// too: from 2^-127 to 2^149.
fn power_for(size: f32) -> f64 {
    let exponent = f64::from(size).to_bits() >> FRACTION;
    f64::from_bits((2 * BIAS - exponent) << FRACTION)
}
