//! Lines that graze a plane: the product of normal and direction is zero, of either sign, vanishes, is subnormal, tiny, or what is left
//! where two products nearly cancel.

use super::ends::place;
use super::Plan;
use crate::values::{near, power_of_two, with_exponent, zeros, Draw, Vector, SIGN};

/// A small part is at least two to this power.
const LEAST: i32 = -120;

/// A plane, and a line that grazes it.
pub fn grazing(plan: &mut Plan) {
    let [normal, along, on_it, plane, from, other] = plan.rows();
    let [n, b] = if plan.d.once_in(4) { that_cancel(plan.d) } else { along_axes(plan.d) };
    plan.direction(normal, n);
    plan.direction(along, b);
    let [first, second] = [(); 2].map(|()| place(plan.d));
    plan.point(on_it, first);
    plan.command(34, plane, on_it, normal);
    let start = if plan.d.once_in(4) { first } else { second };
    plan.point(from, start);
    let met = plan.d.one_of(&[other, other, from, along, plane]);
    plan.meeting(met, from, along, plane);
    plan.command(35, 0, met, plane);
}

/// Vectors along two axes, each with a small part along the third one: their product is that of the small parts.
fn along_axes(d: &mut Draw) -> [Vector; 2] {
    let mut vectors = [(); 2].map(|()| zeros(d));
    let first = d.below(3) as usize;
    let (second, third) = ((first + 1) % 3, (first + 2) % 3);
    vectors[0][first] |= power_of_two(0);
    vectors[1][second] |= power_of_two(0);
    let exponent = match d.below(6) {
        0 => return vectors,
        // the product of the parts vanishes, or just does not
        1 => d.between(-160, -148),
        // it is subnormal, tiny, small
        2 => d.between(-149, -126),
        3 => d.between(-126, -60),
        4 => d.between(-60, -10),
        _ => d.between(2 * LEAST, -150),
    };
    let share = d.between((exponent + 1).max(LEAST), (exponent - LEAST).min(-1));
    vectors[0][third] |= power_of_two(share);
    vectors[1][third] |= power_of_two(exponent - share);
    vectors
}

/// Vectors in a plane at a right angle, or nearly: two products cancel, or nearly do.
fn that_cancel(d: &mut Draw) -> [Vector; 2] {
    let [x, y] = [(); 2].map(|()| with_exponent(d, 125, 129));
    let [z, w] = [(); 2].map(|()| d.word() & SIGN);
    let beside = near(d, x ^ SIGN);
    let turned = d.below(3) as usize;
    [[x, y, z], [y, beside, w]].map(|mut v| {
        v.rotate_left(turned);
        v
    })
}
