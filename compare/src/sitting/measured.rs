//! Lengths and distances that are exact roots or just not: the points of 26 and 27 are made right before they are measured.

use super::plan::Plan;
use crate::sheet::{Kind, Row, ROWS};
use crate::squares::{add, for_distance, for_length};
use crate::values::Vector;
use std::iter;

/// Once in so many times a distance is that of a row that there is.
const FROM_ROW: u32 = 4;

/// A point, and its length.
pub fn length(plan: &mut Plan) {
    let (t, v) = (plan.d.below(ROWS), for_length(plan.d));
    plan.point(t, v);
    plan.command(26, 0, t, 0);
}

/// Two points, and their distance; or one point, and its distance to a row that there is.
pub fn distance(plan: &mut Plan, rows: &[Row]) {
    let (t, other) = (plan.d.below(ROWS), plan.d.below(ROWS));
    let row = rows[other as usize];
    if matches!(row.kind(), Kind::Point | Kind::Direction) && plan.d.once_in(FROM_ROW) {
        let way = for_length(plan.d);
        let end = add(plan.d, row.numbers().map(f32::to_bits), way);
        plan.point(t, end);
    } else {
        let finite = |ends: &[Vector; 2]| ends.as_flattened().iter().all(|&bits| f32::from_bits(bits).is_finite());
        let [end, from] = iter::repeat_with(|| for_distance(plan.d)).find(finite).expect("it goes on");
        plan.point(other, from);
        plan.point(t, end);
    }
    let (a, b) = if plan.d.once_in(2) { (t, other) } else { (other, t) };
    plan.command(27, 0, a, b);
}
