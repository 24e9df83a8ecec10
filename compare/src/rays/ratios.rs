//! Ratios u for command 23, drawn by a seed: all of 0.25 to 4, their ends, 1, and those where total reflection begins.

use super::rows::Ray;
use crate::sheet::refract_k;
use crate::values::{float, Draw};
use crate::Vec3;

/// The bits of the least and of the largest ratio that 5 does not refuse, and of 1.
pub const LEAST: u32 = 0x3e80_0000;
pub const MOST: u32 = 0x4080_0000;
pub const ONE: u32 = 0x3f80_0000;

/// Any number at all comes once in so many times.
const ANY: u32 = 256;

/// A ratio for the directions a and b, if the rows are directions.
pub fn ratio(d: &mut Draw, directions: Option<[Ray; 2]>) -> u32 {
    if d.once_in(ANY) {
        return float(d);
    }
    match d.below(32) {
        0 => d.one_of(&[LEAST, MOST]),
        1 => d.one_of(&[LEAST + 1, MOST - 1]),
        2 => d.one_of(&[LEAST - 1, MOST + 1]),
        3 => ONE,
        4 => d.one_of(&[ONE - 2, ONE - 1, ONE + 1, ONE + 2]),
        5..=14 => {
            let last = directions.and_then(|[a, b]| last_not_reflected(a, b));
            last.map_or(MOST, |last| last.wrapping_add(d.between(-3, 2) as u32))
        }
        // below 1 k is never below zero
        15..=20 => LEAST + d.below(ONE - LEAST),
        _ => LEAST + d.below(MOST - LEAST + 1),
    }
}

/// The k that `refract` works out for the ratio of these bits.
pub fn k(a: Ray, b: Ray, bits: u32) -> f32 {
    let [a, b] = [a, b].map(|[x, y, z]| Vec3::new(x, y, z));
    refract_k(a, b, f32::from_bits(bits))
}

/// The last ratio whose k is not below zero, if it is one that 5 does not refuse. It is a few numbers from the one whose k is zero without
/// rounding.
fn last_not_reflected(a: Ray, b: Ray) -> Option<u32> {
    let dot: f64 = a.iter().zip(b).map(|(&x, y)| f64::from(x) * f64::from(y)).sum();
    let start = (1.0 / (1.0 - dot * dot).sqrt()) as f32;
    if !(0.25..4.0).contains(&start) {
        return None;
    }
    let mut bits = start.to_bits();
    while k(a, b, bits) < 0.0 {
        bits -= 1;
    }
    while k(a, b, bits + 1) >= 0.0 {
        bits += 1;
    }
    Some(bits)
}
