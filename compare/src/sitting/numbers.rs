//! Values of a sitting's commands: made from the rows that the command reads, and at the thresholds of each command.

use crate::sheet::{Row, Used};
use crate::values::{
    along_axis, around, bits_of, exact, float, measure, moved, near, power, related_vector, short, unit_vector, vector,
    with_exponent, Draw, Vector,
};

/// A used value that is not finite, where one is drawn, is drawn again, but for one in so many times.
const KEPT: u32 = 8;

/// Squares of lengths at which something changes: the least that is normal (2^-126, and a little more, where squares of the components
/// vanish), the least whose reciprocal is finite (2^-128), the least that does not vanish (2^-149, and 2^-150 for one component), the least
/// that overflows (2^128).
const SQUARES: [i32; 8] = [-124, -125, -126, -127, -128, -149, -150, 128];

/// Numbers so large that a sum or a difference of two overflows.
const LARGE: [u32; 8] =
    [0x7f7f_ffff, 0xff7f_ffff, 0x7f7f_fffe, 0xff7f_fffe, 0x7f00_0000, 0xff00_0000, 0x7f61_b1e6, 0xff61_b1e6];

/// Infinities and NaNs.
const NOT_FINITE: [u32; 6] = [0x7f80_0000, 0xff80_0000, 0x7fc0_0000, 0xffc0_0001, 0x7f80_0001, u32::MAX];

/// The values u, v, w of a command that reads the vectors `rows`.
pub fn values(d: &mut Draw, number: u32, used: &Used, rows: [Vector; 2], sheet: &[Row]) -> [u32; 3] {
    let mut values = draw_values(d, number, rows, sheet);
    while values[..used.values].iter().any(|&bits| !f32::from_bits(bits).is_finite()) && !d.once_in(KEPT) {
        values = draw_values(d, number, rows, sheet);
    }
    for value in &mut values[used.values..] {
        *value = match d.below(8) {
            0..=3 => 0,
            4 => d.one_of(&NOT_FINITE),
            _ => d.word(),
        };
    }
    if used.values > 0 && d.once_in(128) {
        let place = d.below(used.values as u32) as usize;
        values[place] = d.one_of(&NOT_FINITE);
    }
    values
}

fn draw_values(d: &mut Draw, number: u32, rows: [Vector; 2], sheet: &[Row]) -> [u32; 3] {
    match number {
        1 => point(d, sheet),
        9 => summand(d, rows),
        10 => lengths(d, rows[0]),
        23 => [ratio(d, rows), 0, 0],
        _ if d.once_in(16) => [d.one_of(&LARGE), 0, 0],
        _ if d.once_in(3) => [float(d), 0, 0],
        _ => [measure(d, &rows), 0, 0],
    }
}

/// A point: any, of length 1, with a square at a threshold, of ordinary size, with few digits, very
/// large, or one that has to do with a row.
fn point(d: &mut Draw, sheet: &[Row]) -> Vector {
    match d.below(20) {
        0..=3 => vector(d),
        4 | 5 => unit_vector(d),
        6..=9 => {
            let size = 2f64.powf(f64::from(d.one_of(&SQUARES)) * 0.5);
            let v = if d.once_in(3) { along_axis(d, size) } else { moved(d, [0.0; 3], size) };
            v.map(|c| near(d, c))
        }
        10 | 11 => {
            let size = power(d);
            along_axis(d, size)
        }
        12 | 13 => [(); 3].map(|()| if d.once_in(2) { d.one_of(&LARGE) } else { float(d) }),
        14 | 15 => [(); 3].map(|()| with_exponent(d, 122, 132)),
        16 => [(); 3].map(|()| short(d)),
        _ => {
            let row = sheet[d.below(sheet.len() as u32) as usize].numbers().map(f32::to_bits);
            related_vector(d, &[row])
        }
    }
}

/// What 9 adds to the products of the components: any vector, one that nearly takes the products off, or one that decides how they
/// are rounded.
fn summand(d: &mut Draw, [a, b]: [Vector; 2]) -> Vector {
    if d.once_in(3) {
        return vector(d);
    }
    [0, 1, 2].map(|i| {
        let product = exact(a[i]) * exact(b[i]);
        let scale = d.one_of(&[-1.0, -1.0, 1.0, 2f64.powi(-24), -(2f64.powi(-25)), 2f64.powi(-60), -(2f64.powi(-60))]);
        around(d, product * scale)
    })
}

/// The least and the largest length of 10: about the vector's own, equal, zeros of either sign, in the wrong order.
fn lengths(d: &mut Draw, a: Vector) -> [u32; 3] {
    let v = a.map(exact);
    let own = (v[0] * v[0] + v[1] * v[1] + v[2] * v[2]).sqrt();
    let length = |d: &mut Draw| {
        let bits = match d.below(8) {
            0..=2 => around(d, own),
            3 => 0,
            4 => float(d),
            5 => {
                let size = power(d);
                bits_of(d, size)
            }
            6 => d.one_of(&[0x7f7f_ffff, 1, 0x1a00_0000, 0x5f80_0000]),
            _ => {
                let scale = d.one_of(&[0.5, 2.0, 1e-3, 1e3]);
                bits_of(d, own * scale)
            }
        };
        bits & 0x7fff_ffff
    };
    let (u, v) = (length(d), length(d));
    let (u, v) = (u.min(v), u.max(v));
    match d.below(24) {
        0 => [v, u, 0],
        1 => [u, u, 0],
        2 => [near(d, u), u, 0],
        3 => d.one_of(&[[0x8000_0000, v, 0], [0, 0x8000_0000, 0], [0x8000_0000, 0x8000_0000, 0], [0x8000_0000, 0, 0]]),
        4 => d.one_of(&[[0x8000_0001, v, 0], [0, 0x8000_0001, 0], [u | 0x8000_0000, v, 0], [u, v | 0x8000_0000, 0]]),
        5 => [0, v, 0],
        _ => [u, v, 0],
    }
}

/// A ratio of refraction: any from 0.25 to 4, at the ends, at 1, or where k is about zero.
fn ratio(d: &mut Draw, [a, b]: [Vector; 2]) -> u32 {
    let dot: f64 = (0..3).map(|i| exact(a[i]) * exact(b[i])).sum();
    match d.below(16) {
        0 | 1 => around(d, 0.25),
        2 | 3 => around(d, 4.0),
        4 => around(d, 1.0),
        5 => d.one_of(&[0, 0x8000_0000, 0x3e7f_ffff, 0x4080_0001, 0xbf80_0000, 0x7f80_0000, 0x7fc0_0000]),
        6 => float(d),
        7..=9 => {
            let critical = 1.0 / (1.0 - dot * dot).abs().sqrt();
            around(d, critical.clamp(0.25, 4.0))
        }
        _ => with_exponent(d, 125, 128) & 0x7fff_ffff,
    }
}
