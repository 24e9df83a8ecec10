//! Numbers whose roots are exact or just not, and vectors whose lengths and distances are such roots: whole triangles and what is
//! beside them. All drawn by a seed; a number is the bits of an f32.

use crate::values::{bits_of, either_sign, exact, moved, vector, zeros, Draw, Vector, SIGN};

/// A whole number has an exact square in f32 where it has so many bits, but for zeros at its end.
const SHORT: i32 = 12;

/// The bits of an f32's significand.
const LONG: i32 = 24;

/// An argument of a root: the square of a short number or of a longer one, often the number below or above it, now and then twice or
/// minus such a number.
pub fn for_root(d: &mut Draw) -> u32 {
    let root = if d.once_in(3) { whole(d, SHORT + 1, LONG) } else { whole(d, 1, SHORT) } * scale(d);
    let twice = if d.once_in(8) { 2.0 } else { 1.0 };
    let bits = bits_of(d, root * root * twice);
    let sign = if d.once_in(16) { SIGN } else { 0 };
    beside(d, bits) ^ sign
}

/// A vector whose length is an exact root or just not.
pub fn for_length(d: &mut Draw) -> Vector {
    match d.below(16) {
        0..=6 => triangle(d),
        7 | 8 => triangle(d).map(|part| beside(d, part)),
        9..=11 => with_lost_squares(d),
        12 | 13 => of_short_length(d),
        14 => along_axis(d),
        _ => zeros(d),
    }
}

/// Two vectors whose distance is an exact root or just not.
pub fn for_distance(d: &mut Draw) -> [Vector; 2] {
    let way = for_length(d);
    let from = match d.below(4) {
        0 => zeros(d),
        1 => vector(d),
        // parts of the way and multiples of them, so that sum and difference are exact
        _ => way.map(|_| {
            let multiple = exact(d.one_of(&way)) * f64::from(d.between(-8, 8));
            bits_of(d, multiple)
        }),
    };
    let mut ends = [add(d, from, way), from];
    ends.rotate_left(d.below(2) as usize);
    ends
}

/// The sum of two vectors.
pub fn add(d: &mut Draw, a: Vector, b: Vector) -> Vector {
    [0, 1, 2].map(|i| bits_of(d, exact(a[i]) + exact(b[i])))
}

/// The parts of a whole triangle in any order, with any signs, times a power of two. Its length has up to 18 bits.
fn triangle(d: &mut Draw) -> Vector {
    let below = d.one_of(&[3, 3, 5, 16, 64]);
    let [m, n, p, q] = [(); 4].map(|()| f64::from(d.below(below)));
    // the square of their length is the square of m² + n² + p² + q²
    let parts = [m * m + n * n - p * p - q * q, 2.0 * (m * q + n * p), 2.0 * (n * q - m * p)];
    let times = d.one_of(&[1.0, 1.0, 1.0, 3.0, 5.0, 7.0, 11.0, 15.0]) * scale(d);
    turned(d, parts, times)
}

/// A whole triangle in a plane, or one part alone, with other parts so small that their squares are lost in the sum, or just not.
fn with_lost_squares(d: &mut Draw) -> Vector {
    let size = whole(d, 1, 10) * scale(d);
    let mut parts = d.one_of(&[[3.0, 4.0, 0.0], [5.0, 12.0, 0.0], [1.0, 0.0, 0.0], [1.0, 0.0, 0.0]]);
    for part in &mut parts {
        if *part == 0.0 {
            *part = (1.0 + f64::from(d.below(1000)) / 1000.0) * 2f64.powi(d.between(-20, -8));
        }
    }
    turned(d, parts, size)
}

/// These parts in another order, with any signs, each so many times.
fn turned(d: &mut Draw, mut parts: [f64; 3], times: f64) -> Vector {
    parts.rotate_left(d.below(3) as usize);
    parts.map(|part| {
        let bits = bits_of(d, part * times);
        either_sign(d, bits)
    })
}

/// A vector of any direction and of a length that is a short number: its squares are rounded, and their sum often comes out as an exact
/// square.
fn of_short_length(d: &mut Draw) -> Vector {
    let length = whole(d, 1, SHORT) * scale(d);
    moved(d, [0.0; 3], length)
}

/// A short number or a longer one along an axis.
fn along_axis(d: &mut Draw) -> Vector {
    let mut v = zeros(d);
    let length = whole(d, 1, LONG) * scale(d);
    v[d.below(3) as usize] |= bits_of(d, length);
    v
}

/// A whole number of so many bits, from `least` to `most`.
fn whole(d: &mut Draw, least: i32, most: i32) -> f64 {
    let bits = d.between(least, most);
    f64::from((d.word() | SIGN) >> (32 - bits))
}

/// A power of two: of an ordinary size; one where squares are subnormal or vanish, or overflow; one where all squares vanish.
fn scale(d: &mut Draw) -> f64 {
    2f64.powi(match d.below(16) {
        0..=8 => d.between(-24, 24),
        9..=11 => d.between(-90, -60),
        12..=14 => d.between(40, 66),
        _ => d.between(-149, -90),
    })
}

/// The number itself, or the one next below or above it in size.
pub fn beside(d: &mut Draw, bits: u32) -> u32 {
    let size = bits & !SIGN;
    (bits & SIGN) | d.one_of(&[size, size, size.saturating_sub(1), size + 1])
}
