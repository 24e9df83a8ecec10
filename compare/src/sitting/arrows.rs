//! Arrows of every exponent (document 02, f), and their directions. What goes by an arrow's squares still, 11, 12 and 28, comes after them.

use super::plan::Plan;
use crate::arrows::arrow;

/// Once in so many times the direction goes where the arrow was.
const OVER: u32 = 8;

/// Once in so many times a command that goes by squares reads the arrow too.
const BY_SQUARES: u32 = 4;

/// An arrow, and its direction.
pub fn direction(plan: &mut Plan) {
    let [t, towards, other] = plan.rows();
    let v = arrow(plan.d);
    plan.point(t, v);
    if plan.d.once_in(OVER) {
        plan.command(2, t, t, 0);
        return;
    }
    plan.command(2, towards, t, 0);
    if plan.d.once_in(BY_SQUARES) {
        let number = plan.d.one_of(&[11, 12, 28]);
        plan.command(number, other, towards, t);
    }
}
