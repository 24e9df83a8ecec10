//! Taking back in a sitting: when 33 comes, and how often in a row.

use crate::sheet::{Answer, Kind, REMEMBERED, TAKE_BACK};
use crate::values::Draw;

/// How much is taken back.
#[derive(Clone, Copy)]
pub enum Manner {
    /// About one line in 25, in runs of every length: past all that is remembered too, and often where a mistake could lie.
    Searching,
    /// About one line in 50, one or two at a time, as by someone who mistypes now and then.
    Ordinary,
}

/// Runs past all that is remembered, runs within it and short runs each begin once in so many commands.
const PAST_ALL: u32 = 5000;
const LONG: u32 = 5000;
const SHORT: u32 = 600;

/// The command before, and its answer. None on a fresh sheet.
pub type Last = Option<(u32, Answer)>;

impl Manner {
    /// How many 33 come now in a row; most often none.
    pub fn run(self, d: &mut Draw, last: Last) -> u32 {
        match self {
            Manner::Searching => searching(d, last),
            Manner::Ordinary if d.once_in(75) => 1 + d.below(2),
            Manner::Ordinary => 0,
        }
    }
}

fn searching(d: &mut Draw, last: Last) -> u32 {
    let all = REMEMBERED as u32;
    if d.once_in(PAST_ALL) {
        return all + 1 + d.below(all / 2);
    }
    if d.once_in(LONG) {
        return 10 + d.below(all - 9);
    }
    if d.once_in(SHORT) {
        return 2 + d.below(8);
    }
    let once_in = match last {
        None => 8,
        Some((0 | 24 | 34 | 36, Answer { refusal: 0, .. })) => 8,
        Some((_, Answer { refusal: 0, .. })) => 128,
        Some(_) => 64,
    };
    u32::from(d.once_in(once_in))
}

/// The row that the command before brought back, where it was a 33.
pub fn brought_back(last: Last) -> Option<u32> {
    match last {
        Some((TAKE_BACK, Answer { refusal: 0, row, .. })) => Some(row),
        _ => None,
    }
}

/// Whether the command before was a 33 that brought back a plane.
pub fn brought_back_plane(last: Last) -> bool {
    matches!(last, Some((TAKE_BACK, answer)) if answer.kind == Kind::Plane as u32)
}
