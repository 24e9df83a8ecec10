//! Planes that are planned: parapets, lines that graze a plane, offsets at the ends of what is finite, planes that are overwritten and
//! come back.

mod ends;
mod grazing;
mod overwritten;
mod parapet;

use super::plan::Plan;
pub use parapet::parapet;

/// A plan of any sort.
pub fn any(plan: &mut Plan) {
    match plan.d.below(8) {
        0 => parapet(plan),
        1..=3 => grazing::grazing(plan),
        4 | 5 => ends::ends(plan),
        _ => overwritten::overwritten(plan),
    }
}
