//! Directions anywhere within their bound, most of them as near to one of its ends as they get. No command makes those, but a program may
//! lend them. All are drawn by a seed.

use crate::exact::{off_one, Size};
use crate::values::{direction, Draw};

pub type Ray = [f32; 3];

/// Demand 3: the exact squared length of a direction is within 2^-18 of 1.
pub const BOUND: u32 = 18;

/// A component is moved by less than 2 to the power of this in steps of its last bit, and stays as it is below 2^-20.
const STEPS: u32 = 21;
const LEAST_MOVED: f32 = 1.0 / 1048576.0;

/// How far inside the bound a squared length is drawn, so that rounding does not take it out: 4 times 2^-24.
const MARGIN: f64 = 1.0 / 4194304.0;

/// A direction of any shape.
pub fn ray(d: &mut Draw) -> Ray {
    let way = way(d);
    within(d, way)
}

/// A direction that has to do with another one.
pub fn related(d: &mut Draw, ray: Ray) -> Ray {
    let a = ray.map(f64::from);
    let opposite = a.map(|x| -x);
    let way = match d.below(12) {
        0 => return ray,
        1 => return ray.map(|x| -x),
        // the same way or the opposite one, mostly at an end
        2 => a,
        3 => opposite,
        // a small step aside from these
        4 => aside(d, a),
        5 => aside(d, opposite),
        6 | 7 => across(d, a),
        // where z is zero, at a right angle and as long
        8 if ray[2] == 0.0 => return [-ray[1], ray[0], ray[2]],
        8 => [-a[1], a[0], 0.0],
        // nearly at a right angle
        9 | 10 => {
            let way = across(d, a);
            let part = small(d);
            sum(way, a.map(|x| x * part))
        }
        _ => way(d),
    };
    within(d, way)
}

/// Whether the exact squared length is within the bound.
pub fn is_within(v: Ray) -> bool {
    off_one(v) <= Size::power(BOUND)
}

/// A way of one of the shapes, with components in any order and of any signs: any; along an axis; with two components of one size, or with one
/// that is zero; nearly along an axis; the one whose squared length is just 1 + 2^-18. (None has just 1 - 2^-18: no number 4^m(8n + 7)
/// is a sum of three squares.)
fn way(d: &mut Draw) -> [f64; 3] {
    let [x, y, z] = direction(d);
    let mut way = match d.below(8) {
        0..=2 => [x, y, z],
        3 => [1.0, tiny(d), tiny(d)],
        4 => [x, x, z],
        5 => [x, y, 0.0],
        6 => [1.0, small(d), small(d)],
        _ => [1.0, 2f64.powi(-9), 0.0],
    };
    way.rotate_left(d.below(3) as usize);
    way.map(|x| if d.once_in(2) { -x } else { x })
}

/// A number beside 1: zero, subnormal, or just tiny.
fn tiny(d: &mut Draw) -> f64 {
    match d.below(3) {
        0 => 0.0,
        1 => f32::from_bits(d.word() >> (9 + d.below(23))).into(),
        _ => d.unit() * 2f64.powi(d.between(-126, -25)),
    }
}

/// A number from very small to about a half.
fn small(d: &mut Draw) -> f64 {
    d.unit() * 2f64.powi(d.between(-30, -1))
}

/// A way a small step aside from another.
fn aside(d: &mut Draw, a: [f64; 3]) -> [f64; 3] {
    let (way, size) = (direction(d), small(d));
    sum(a, way.map(|x| x * size))
}

/// A way at a right angle to another.
fn across(d: &mut Draw, a: [f64; 3]) -> [f64; 3] {
    let b = direction(d);
    [a[1] * b[2] - b[1] * a[2], a[2] * b[0] - b[2] * a[0], a[0] * b[1] - b[0] * a[1]]
}

fn sum(a: [f64; 3], b: [f64; 3]) -> [f64; 3] {
    [a[0] + b[0], a[1] + b[1], a[2] + b[2]]
}

/// The direction of a way, within the bound.
fn within(d: &mut Draw, way: [f64; 3]) -> Ray {
    match d.below(8) {
        0..=2 => at_end(way, true),
        3..=5 => at_end(way, false),
        6 => of_square(way, 1.0 + d.unit() * (bound() - MARGIN)),
        _ => of_square(way, 1.0),
    }
}

fn bound() -> f64 {
    2f64.powi(-(BOUND as i32))
}

/// A way with a squared length that is about this one; along an axis if the way has none.
fn of_square(way: [f64; 3], square: f64) -> Ray {
    let length = way.iter().map(|x| x * x).sum::<f64>().sqrt();
    let way = if length > 0.0 { way.map(|x| x / length) } else { [0.0, 0.0, 1.0] };
    way.map(|x| (x * square.sqrt()) as f32)
}

/// A way whose exact squared length is as near to an end of the bound as it gets: component after component, the largest first, is moved towards
/// that end as far as it stays within.
fn at_end(way: [f64; 3], upper: bool) -> Ray {
    let mut v = of_square(way, if upper { 1.0 + bound() } else { 1.0 - bound() });
    let mut places = [0, 1, 2];
    places.sort_by(|&i, &j| v[j].abs().total_cmp(&v[i].abs()));
    while !is_within(v) {
        v = moved(v, places[0], 1, !upper);
    }
    for place in places {
        for step in (0..STEPS).rev() {
            if v[place].abs() >= LEAST_MOVED {
                let further = moved(v, place, 1 << step, upper);
                v = if is_within(further) { further } else { v };
            }
        }
    }
    v
}

/// The vector with a component, and each other of its size, so many numbers further from zero or nearer to it.
fn moved(v: Ray, place: usize, steps: u32, further: bool) -> Ray {
    let size = v[place].abs();
    let other = |x: f32| f32::from_bits(if further { x.to_bits() + steps } else { x.to_bits() - steps });
    v.map(|x| if x.abs() == size { other(x) } else { x })
}
