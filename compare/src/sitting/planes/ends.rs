//! Offsets at the ends of what is finite: those that overflow, or nearly do, and zeros of either sign.

use super::Plan;
use crate::values::{along_axis, either_sign, power, unit_vector, with_exponent, zeros, Draw, Vector, SIGN};

/// Sizes so large that sums and differences of their products with a normal overflow.
const LARGE: [u32; 4] = [0x7f7f_ffff, 0x7f61_b1e6, 0x7f40_0000, 0x7f00_0000];

/// A plane through a point that is very large or zero, points of such a size over it, and a line from one.
pub fn ends(plan: &mut Plan) {
    let [normal, on_it, plane, from, along, met] = plan.rows();
    let place = if plan.d.once_in(3) { zeros } else { large };
    let [first, second] = [(); 2].map(|()| place(plan.d));
    let n = normal_for(plan.d, first);
    let b = along_axis(plan.d, 1.0);
    plan.direction(normal, n);
    plan.point(on_it, first);
    plan.command(34, plane, on_it, normal);
    plan.command(37, 0, plane, 0);
    plan.point(from, second);
    plan.command(35, 0, from, plane);
    plan.direction(along, b);
    plan.meeting(met, from, along, plane);
    plan.command(37, 0, plane, 0);
}

/// A place: of an ordinary size, small or large or zero, of any size.
pub fn place(d: &mut Draw) -> Vector {
    match d.below(8) {
        0..=2 => [(); 3].map(|()| with_exponent(d, 122, 132)),
        3 => [(); 3].map(|()| with_exponent(d, 1, 120)),
        4 => large(d),
        5 => zeros(d),
        6 => [(); 3].map(|()| with_exponent(d, 0, 254)),
        _ => {
            let size = power(d);
            along_axis(d, size)
        }
    }
}

/// Large numbers of either sign, with zeros among them.
fn large(d: &mut Draw) -> Vector {
    [(); 3].map(|()| {
        let size = if d.once_in(4) { 0 } else { d.one_of(&LARGE) };
        either_sign(d, size)
    })
}

/// A normal for a plane through a point: along an axis, in the point's own octant, so that all products have one sign, or any.
fn normal_for(d: &mut Draw, point: Vector) -> Vector {
    match d.below(3) {
        0 => along_axis(d, 1.0),
        1 => point.map(|part| (part & SIGN) | with_exponent(d, 126, 127) & !SIGN),
        _ => unit_vector(d),
    }
}
