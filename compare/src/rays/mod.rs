//! Commands 22, 23 and 24 by a seed, and the rows that they read (document 02, g): directions that commands made, and directions at the ends
//! of their bound, which a program may lend.

pub mod ratios;
pub mod rows;
mod seen;

pub use seen::Seen;

use crate::arrows::arrow;
use crate::sheet::{Command, Kind, Row, ROWS};
use crate::values::{related_vector, vector, Draw, Vector};
use ratios::ratio;

/// Where the rows of a sheet come from.
#[derive(Clone, Copy, PartialEq, Eq)]
pub enum Sort {
    /// Commands made all of them.
    Made,
    /// A program lends the first of them. The others are empty before lines write them.
    Lent,
}

/// How many rows a program lends.
const LENT: u32 = 48;

/// On a sheet with rows that are lent, a line reads or writes any row once in so many times; otherwise it reads those that are lent and writes
/// the others.
const ANY_ROW: u32 = 16;

/// t is a or b, or t + 1 is a, once in so many times.
const COINCIDES: u32 = 32;

/// 24 may have t = 63, and a used row may be above 63, once in so many times.
const LAST_ROW: u32 = 64;
const NO_ROW: u32 = 512;

/// The commands that make each row a direction: a point by 1, then 2 on it. Three zeros stay a point.
pub fn making(d: &mut Draw) -> Vec<Command> {
    let mut before = arrow(d);
    let mut commands = Vec::new();
    for t in 0..ROWS {
        before = point(d, before);
        let [x, y, z] = before;
        commands.push(Command::of([1, t, 0, 0, x, y, z]));
        commands.push(Command::of([2, t, t, 0, 0, 0, 0]));
    }
    commands
}

/// A finite vector: an arrow, any, or one that has to do with the one before it.
fn point(d: &mut Draw, before: Vector) -> Vector {
    loop {
        let v = match d.below(4) {
            0 => vector(d),
            1 => related_vector(d, &[before]),
            _ => arrow(d),
        };
        if v.iter().all(|&bits| f32::from_bits(bits).is_finite()) {
            return v;
        }
    }
}

/// The rows that are lent: two by two a direction and one that has to do with it.
pub fn lent(d: &mut Draw) -> Vec<Row> {
    let pairs = (0..LENT / 2).flat_map(|_| {
        let first = rows::ray(d);
        [first, rows::related(d, first)]
    });
    pairs.map(|ray| Row::of(Kind::Direction, ray, 0.0)).collect()
}

/// A command for a sheet that has these rows. Values that it does not use hold anything now and then.
pub fn command(d: &mut Draw, rows: &[Row], sort: Sort) -> Command {
    let number = d.one_of(&[22, 23, 23, 24]);
    let a = row(d, sort, true);
    let b = if d.once_in(4) { row(d, sort, true) } else { a ^ 1 };
    let last = if number == 24 && !d.once_in(LAST_ROW) { ROWS - 2 } else { ROWS - 1 };
    let t = if d.once_in(COINCIDES) { d.one_of(&[a, b, a.saturating_sub(1)]) } else { row(d, sort, false) }.min(last);
    let mut values = [(); 3].map(|()| if d.once_in(4) { d.word() } else { 0 });
    if number == 23 {
        let sources = [a, b].map(|row| rows[row as usize]);
        let directions = sources.iter().all(|row| row.kind() == Kind::Direction);
        values[0] = ratio(d, directions.then_some(sources.map(|row| row.numbers())));
    }
    let mut command = Command { number, t, a, b, values };
    if d.once_in(NO_ROW) {
        let above = d.one_of(&[64, 65, 128, 999]);
        match d.below(3) {
            0 => command.t = above,
            1 => command.a = above,
            _ => command.b = above,
        }
    }
    command
}

/// A row that a command reads, or one that it writes.
fn row(d: &mut Draw, sort: Sort, reads: bool) -> u32 {
    if sort == Sort::Made || d.once_in(ANY_ROW) {
        d.below(ROWS)
    } else if reads {
        d.below(LENT)
    } else {
        LENT + d.below(ROWS - LENT)
    }
}
