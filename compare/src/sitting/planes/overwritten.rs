//! Planes that are overwritten, by commands of each sort, and come back by 33: the offset has to come back too, and is read right after it.

use super::ends::place;
use super::Plan;
use crate::sheet::TAKE_BACK;
use crate::values::unit_vector;

/// A plane that is overwritten and brought back, once or twice, and read in between and afterwards.
pub fn overwritten(plan: &mut Plan) {
    let rows = plan.rows();
    let [plane, edge, normal, other, from] = rows;
    let [first, second, n] = [place(plan.d), place(plan.d), unit_vector(plan.d)];
    plan.point(edge, first);
    plan.point(from, second);
    plan.direction(normal, n);
    plan.command(34, plane, edge, normal);
    plan.command(34, other, from, normal);
    for _ in 0..1 + plan.d.below(2) {
        write_over(plan, rows);
        if plan.d.once_in(2) {
            plan.command(37, 0, plane, 0);
        }
        plan.command(TAKE_BACK, 0, 0, 0);
        plan.command(37, 0, plane, 0);
    }
    plan.command(35, 0, from, plane);
}

/// A command that writes over the plane.
fn write_over(plan: &mut Plan, [plane, edge, normal, other, from]: [u32; 5]) {
    match plan.d.below(10) {
        0 => plan.command(0, plane, 0, 0),
        1 => {
            let v = place(plan.d);
            plan.point(plane, v);
        }
        2 => plan.command(2, plane, edge, 0),
        3 => plan.command(22, plane, normal, normal),
        4 => plan.command(24, plane, normal, 0),
        5 => plan.command(24, plane.saturating_sub(1), normal, 0),
        6 => plan.command(34, plane, from, normal),
        7 => plan.meeting(plane, from, normal, plane),
        8 => plan.meeting(plane, from, normal, other),
        _ => {
            let number = plan.d.one_of(&[3, 4, 5, 6, 7, 11, 12, 15, 16, 17, 18, 19, 20, 21]);
            plan.command(number, plane, edge, normal);
        }
    }
}
