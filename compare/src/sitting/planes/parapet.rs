//! Whether a head is seen above a parapet, as a planner asks it: in metres, x and y along the ground and z up.

use super::Plan;
use crate::values::{bits_of, exact, Draw, Vector};

/// A parapet or a carriageway as a plane and its offset, heads above and below it, and where the line from an eye to a head meets it.
pub fn parapet(plan: &mut Plan) {
    let [edge, normal, plane, head, eye, sight, met] = plan.rows();
    let on_it = metres(plan.d, [60, 12, 6]);
    let facing = facing(plan.d);
    plan.point(edge, on_it);
    plan.direction(normal, facing);
    plan.command(34, plane, edge, normal);
    plan.command(37, 0, plane, 0);
    for _ in 0..1 + plan.d.below(2) {
        let place = beside(plan.d, on_it, facing);
        plan.point(head, place);
        plan.command(35, 0, head, plane);
    }
    let viewer = metres(plan.d, [20, 8, 2]);
    plan.point(eye, viewer);
    plan.command(4, sight, head, eye);
    plan.command(2, sight, sight, 0);
    plan.meeting(met, eye, sight, plane);
    plan.command(35, 0, met, plane);
}

/// A place within so many metres of the middle, to the quarter of a metre; z is above the ground.
fn metres(d: &mut Draw, [x, y, z]: [i32; 3]) -> Vector {
    [(-x, x), (-y, y), (0, z)].map(|(least, most)| (d.between(4 * least, 4 * most) as f32 * 0.25).to_bits())
}

/// Where a plane faces: a wall, a carriageway with a slight slope, or any plane.
fn facing(d: &mut Draw) -> Vector {
    let [x, y, z] = [(); 3].map(|()| d.between(-100, 100) as f32 * 0.01);
    let v = match d.below(3) {
        0 => [x, y, 0.0],
        1 => [x * 0.1, y * 0.1, 1.0],
        _ => [x, y, z],
    };
    let v = if v == [0.0; 3] { [0.0, 0.0, 1.0] } else { v };
    v.map(f32::to_bits)
}

/// A place on either side of the plane, or on it.
fn beside(d: &mut Draw, on_it: Vector, facing: Vector) -> Vector {
    let times = d.one_of(&[2.5, 1.0, 0.125, 0.0, -0.125, -1.0, -4.0]);
    [0, 1, 2].map(|i| bits_of(d, exact(on_it[i]) + times * exact(facing[i])))
}
