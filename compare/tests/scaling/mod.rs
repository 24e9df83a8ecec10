//! The scaling of document 02 (f) by whole numbers, and the Rust's `try_normalize` by its number, for the tests of directions.

use compare::calls::find;
use compare::exact::parts;

pub type Vector = [f32; 3];

/// The number of `try_normalize` in docs/FUNCTIONS.md.
const TRY_NORMALIZE: u32 = 72;

/// The bits of a significand, and the bits of a u64 before it.
const SIGNIFICAND: u32 = 24;
const BEFORE: u32 = u64::BITS - SIGNIFICAND;

/// The direction of a vector: `try_normalize` of it times the power of two.
pub fn direction_of(v: Vector) -> Option<Vector> {
    try_normalize(scaled(v, -largest_exponent(v)?))
}

pub fn try_normalize(v: Vector) -> Option<Vector> {
    let function = find(TRY_NORMALIZE).expect("it is one of the functions");
    let [is_there, x, y, z, ..] = (function.call)(&v.map(f32::to_bits));
    (is_there == 1).then_some([x, y, z].map(f32::from_bits))
}

/// The largest exponent of a component; none for three zeros.
pub fn largest_exponent(v: Vector) -> Option<i32> {
    v.iter().filter_map(|&x| exponent(x)).max()
}

/// The exponent of a finite number; none for a zero.
pub fn exponent(x: f32) -> Option<i32> {
    let (m, place) = parts(x);
    m.checked_ilog2().map(|first| (first + place) as i32 - 149)
}

/// Each component times two to a power, rounded once.
pub fn scaled(v: Vector, power: i32) -> Vector {
    v.map(|x| times_power(x, power, nearest_even))
}

/// A finite number times two to a power, where that is finite. It is m times 2^place in units of 2^-149; where the place is below zero, so many
/// bits are rounded away, and those that stay are the bits of the product.
pub fn times_power(x: f32, power: i32, round: fn(u64, u32) -> u64) -> f32 {
    let (m, place) = parts(x);
    let place = place as i32 + power;
    let size = if place < 0 { round(m, place.unsigned_abs().min(BEFORE)) as u32 } else { bits_of(m, place as u32) };
    f32::from_bits(size).copysign(x)
}

/// The bits of m times 2^place in units of 2^-149: m is shifted left as far as the place and a significand have room, and what is left of the
/// place goes to the exponent.
fn bits_of(m: u64, place: u32) -> u32 {
    if m == 0 {
        return 0;
    }
    let shift = place.min(m.leading_zeros() - BEFORE);
    (m << shift) as u32 + ((place - shift) << (SIGNIFICAND - 1))
}

/// m without its last bits, to the nearest whole number; of two that are as near, to the even one.
pub fn nearest_even(m: u64, bits: u32) -> u64 {
    let (whole, rest, half) = (m >> bits, m % (1 << bits), 1 << (bits - 1));
    whole + u64::from(rest > half || (rest == half && whole % 2 == 1))
}
