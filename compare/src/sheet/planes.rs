//! Planes (document 02, d): the offset of one, how far a point is over one, where a line meets one, with refusal 12.

use super::{Refusal, Row};
use crate::Vec3;

/// The offset of the plane through a point.
pub fn offset(point: Vec3, normal: Vec3) -> f32 {
    normal.dot(point)
}

/// How far a point is over a plane, on the side to which the normal points.
pub fn over(point: Vec3, plane: &Row) -> f32 {
    point.dot(plane.v) - plane.fourth
}

/// The point where the line from a point along a direction meets a plane, if they are not parallel.
pub fn meeting(from: Vec3, along: Vec3, plane: &Row) -> Result<Vec3, Refusal> {
    let short_of_it = plane.fourth - plane.v.dot(from);
    let approach = plane.v.dot(along);
    if approach == 0.0 {
        return Err(Refusal::Parallel);
    }
    Ok(from + along * (short_of_it / approach))
}
