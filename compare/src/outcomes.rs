//! The outcomes that a command can have: done, done with an exact root, done with a plane shown, or refused by one of the numbers of the
//! documents.

use crate::sheet::{used, Answer, Kind, COMMANDS, EXACT_ROOT, TAKE_BACK};

/// An outcome is 0 for a command done, the number of its refusal, of which 12 is the last, EXACT for a command done whose answer is of
/// kind 5, or PLANE for one whose answer is of kind 6; 9 and 10 are no outcomes of a command.
pub const EXACT: usize = 13;
pub const PLANE: usize = 14;
pub const OUTCOMES: usize = 15;

/// The kind of an answer that shows a plane.
const SHOWS_PLANE: u32 = Kind::Plane as u32;

/// The rows of a table of outcomes: one for each command, one for lines with a number above the last command, one for malformed lines.
pub const ABOVE: usize = COMMANDS as usize;
pub const MALFORMED: usize = ABOVE + 1;

/// The outcome of a command that has this answer.
pub fn outcome(answer: &Answer) -> usize {
    match answer.kind {
        EXACT_ROOT => EXACT,
        SHOWS_PLANE => PLANE,
        _ => answer.refusal as usize,
    }
}

/// Whether a row of the table can have an outcome.
pub fn can_have(row: usize, outcome: usize) -> bool {
    let used = used(row as u32);
    match outcome {
        0 => row < ABOVE && row != 34,
        EXACT => matches!(row, 26 | 27),
        PLANE => matches!(row, 32..=34),
        1 => row == MALFORMED,
        2 => row == ABOVE,
        3 => used.is_some_and(|used| used.t || used.a.is_used()),
        11 => row == TAKE_BACK as usize,
        4 => used.is_some_and(|used| used.a.is_used()),
        5 => used.is_some_and(|used| used.values > 0),
        8 => row == 23,
        // what 22 to 24 make a direction of always has one (laws M, R and P of crates/vector), and they do not ask
        7 => matches!(row, 2 | 11 | 12 | 28),
        12 => row == 36,
        // smaller, larger and whole numbers and components of finite ones are finite
        6 => matches!(row, 3..=5 | 8..=15 | 19 | 20 | 25..=28 | 34..=36),
        _ => false,
    }
}
