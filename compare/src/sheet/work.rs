//! What each command of the plain sheet works out, with the refusals 8, 7, 12 and 6.

use super::directions::{direction_of, sure_direction};
use super::planes::{meeting, offset, over};
use super::{Kind, Refusal, Row};
use crate::roots::is_exact;
use crate::Vec3;

/// What a command does: to row t, or in its answer.
pub enum Effect {
    Empty,
    Point(Vec3),
    Direction(Vec3),
    /// A normal and an offset.
    Plane(Vec3, f32),
    /// Directions for the rows t and t + 1.
    Pair(Vec3, Vec3),
    Number(f32),
    /// A number that is an exact root.
    ExactRoot(f32),
    Whole(u32),
    /// Shows a.
    Show,
    /// Takes back the latest command that wrote a row.
    TakeBack,
}

/// The effect of a command on the rows a and b, the row that u names, and the values u, v, w.
#[inline]
pub fn work(number: u32, [row_a, row_b, named]: &[Row; 3], [u, v, w]: [f32; 3]) -> Result<Effect, Refusal> {
    let onto_direction = row_b.kind == Kind::Direction;
    let (a, b) = (row_a.v, row_b.v);
    match number {
        0 => Ok(Effect::Empty),
        1 => point(Vec3::new(u, v, w)),
        2 => Ok(Effect::Direction(direction_of(a)?)),
        3 => point(a + b),
        4 => point(a - b),
        5 => point(a.cross(b)),
        6 => point(a.min(b)),
        7 => point(a.max(b)),
        8 => point(a * u),
        9 => point(a.mul_add(b, Vec3::new(u, v, w))),
        10 => point(a.clamp_length(u, v)),
        11 if onto_direction => point(a.project_onto_normalized(b)),
        11 => point(a.project_onto(divisor(b)?)),
        12 if onto_direction => point(a.reject_from_normalized(b)),
        12 => point(a.reject_from(divisor(b)?)),
        13 => point(a.lerp(b, u)),
        14 => point(a.move_towards(b, u)),
        15 => point(a.midpoint(b)),
        16 => point(a.trunc()),
        17 => point(a.floor()),
        18 => point(a.round()),
        19 => point(a.div_euclid(b)),
        20 => point(a.rem_euclid(b)),
        21 => point(a.any_orthogonal_vector()),
        22 => Ok(Effect::Direction(sure_direction(a.reflect(b)))),
        23 if refract_k(a, b, u) < 0.0 => Err(Refusal::Reflection),
        23 => Ok(Effect::Direction(sure_direction(a.refract(b, u)))),
        24 => {
            let (first, second) = a.any_orthonormal_pair();
            Ok(Effect::Pair(sure_direction(first), sure_direction(second)))
        }
        25 => measure(a.dot(b)),
        26 => root(a.length(), a.length_squared()),
        27 => root(a.distance(b), a.distance_squared(b)),
        28 if a.length_squared() == 0.0 || b.length_squared() == 0.0 => Err(Refusal::Direction),
        28 => measure(a.angle_between(b)),
        29 => Ok(Effect::Whole(a.min_position() as u32)),
        30 => Ok(Effect::Whole(a.max_position() as u32)),
        31 => Ok(Effect::Whole(a.cmple(b).bitmask())),
        32 => Ok(Effect::Show),
        33 => Ok(Effect::TakeBack),
        34 => plane(b, offset(a, b)),
        35 => measure(over(a, row_b)),
        36 => point(meeting(a, b, named)?),
        37 => measure(row_a.fourth),
        _ => Err(Refusal::Number),
    }
}

/// A point, if it is finite.
fn point(v: Vec3) -> Result<Effect, Refusal> {
    if v.is_finite() {
        Ok(Effect::Point(v))
    } else {
        Err(Refusal::Result)
    }
}

/// A plane, if its offset is finite.
fn plane(normal: Vec3, offset: f32) -> Result<Effect, Refusal> {
    if offset.is_finite() {
        Ok(Effect::Plane(normal, offset))
    } else {
        Err(Refusal::Result)
    }
}

/// A number, if it is finite.
fn measure(x: f32) -> Result<Effect, Refusal> {
    if x.is_finite() {
        Ok(Effect::Number(x))
    } else {
        Err(Refusal::Result)
    }
}

/// The root of x, if it is finite. Whether it is exact goes by the root alone: x may have been rounded.
fn root(root: f32, x: f32) -> Result<Effect, Refusal> {
    if is_exact(root, x) {
        Ok(Effect::ExactRoot(root))
    } else {
        measure(root)
    }
}

/// The point b of 11 and 12, if 1/(b·b) is finite.
fn divisor(b: Vec3) -> Result<Vec3, Refusal> {
    if b.dot(b).recip().is_finite() {
        Ok(b)
    } else {
        Err(Refusal::Direction)
    }
}

/// The k that `refract` works out.
pub fn refract_k(incident: Vec3, normal: Vec3, eta: f32) -> f32 {
    let dot = normal.dot(incident);
    1.0 - eta * eta * (1.0 - dot * dot)
}
