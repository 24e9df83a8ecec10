//! Vectors whose directions are worth taking (document 02, f), drawn by a seed: of every largest exponent, with other components so far below
//! it that, scaled, they are subnormal, are rounded at a tie or beside one, or vanish.

use crate::squares::beside;
use crate::values::{bits_of, either_sign, power_of_two, zeros, Draw, Vector, SIGN};

/// The least and the largest exponent of a finite number that is not zero.
pub const LEAST: i32 = -149;
pub const MOST: i32 = 127;

/// Exponents at which something changes: the ends of the subnormal and of the normal numbers; where squares vanish, are subnormal or
/// overflow; where the power is no normal f32; from which on products are rounded.
const EXPONENTS: [i32; 20] = [-149, -148, -129, -128, -127, -126, -125, -76, -75, -74, -64, -63, -1, 0, 1, 2, 63, 64, 126, 127];

/// The exponent of the least normal number, and the bits of a normal number's fraction.
const LEAST_NORMAL: i32 = -126;
const FRACTION: u32 = 0x007f_ffff;

/// Three zeros come once in so many times.
const ZEROS: u32 = 32;

/// An arrow: its largest component, and two others in any order; or zeros of either sign.
pub fn arrow(d: &mut Draw) -> Vector {
    if d.once_in(ZEROS) {
        return zeros(d);
    }
    let exponent = match d.below(8) {
        0..=3 => d.between(LEAST, MOST),
        4 => d.one_of(&EXPONENTS),
        // the power is a subnormal f32
        5 => MOST,
        // products are rounded
        _ => d.between(1, MOST),
    };
    let mut v = [largest(d, exponent), other(d, exponent), other(d, exponent)];
    v.rotate_left(d.below(3) as usize);
    v
}

/// A component of the largest exponent: a power of two, so that the direction has the other components as they are scaled; the last number
/// below the next power; any.
fn largest(d: &mut Draw, exponent: i32) -> u32 {
    let power = power_of_two(exponent);
    let size = match d.below(8) {
        0..=3 => power,
        4 => power | behind_first(exponent),
        _ => of_exponent(d, exponent),
    };
    either_sign(d, size)
}

/// A component beside one that has the largest exponent.
fn other(d: &mut Draw, largest: i32) -> u32 {
    let exponent = match d.below(12) {
        0 | 1 => return d.word() & SIGN,
        2..=4 if largest > 0 => return half_way(d, largest),
        5 if largest >= 0 => return whole(d, largest),
        6 => largest,
        // not far below it
        7 => d.between(largest - 30, largest),
        // its product with the power is subnormal, or just not
        8 | 9 => d.between(largest - 150, largest - 125),
        // it vanishes
        10 if largest > 1 => d.between(LEAST, largest - 151),
        _ => d.between(LEAST, largest),
    };
    of_exponent(d, exponent.max(LEAST))
}

/// A component whose product with the power is half way between two subnormal numbers, or one beside it in size.
fn half_way(d: &mut Draw, largest: i32) -> u32 {
    let odd = f64::from(digits(d) | 1);
    let bits = bits_of(d, odd * 2f64.powi(largest + LEAST - 1));
    let size = beside(d, bits);
    either_sign(d, size)
}

/// A component whose product with the power is subnormal and exact.
fn whole(d: &mut Draw, largest: i32) -> u32 {
    let whole = f64::from(digits(d));
    let size = bits_of(d, whole * 2f64.powi(largest + LEAST));
    either_sign(d, size)
}

/// A whole number of up to 24 bits.
fn digits(d: &mut Draw) -> u32 {
    d.word() >> (8 + d.below(24))
}

/// A number of either sign that has an exponent; below -126 it is subnormal.
fn of_exponent(d: &mut Draw, exponent: i32) -> u32 {
    let behind = d.word() & behind_first(exponent);
    either_sign(d, power_of_two(exponent) | behind)
}

/// The bits behind the first of a number that has an exponent.
fn behind_first(exponent: i32) -> u32 {
    if exponent < LEAST_NORMAL {
        power_of_two(exponent) - 1
    } else {
        FRACTION
    }
}
