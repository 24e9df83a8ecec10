//! Which fields each command of the plain sheet uses, and what refusals 3 and 5 ask of them.

use super::{Command, Kind};

/// How many commands there are, from 0 on.
pub const COMMANDS: u32 = 38;

/// The command that takes back the latest one.
pub const TAKE_BACK: u32 = 33;

/// What a row that a command reads has to be.
#[derive(Clone, Copy, PartialEq, Eq)]
pub enum Source {
    /// The command does not read it.
    Unused,
    /// Any row but an empty one.
    Any,
    PointOrDirection,
    Point,
    Direction,
    Plane,
}

impl Source {
    pub fn is_used(self) -> bool {
        self != Source::Unused
    }

    /// Whether a row of a kind is such a one.
    pub fn takes(self, kind: Kind) -> bool {
        match self {
            Source::Unused => true,
            Source::Any => kind != Kind::Empty,
            Source::PointOrDirection => matches!(kind, Kind::Point | Kind::Direction),
            Source::Point => kind == Kind::Point,
            Source::Direction => kind == Kind::Direction,
            Source::Plane => kind == Kind::Plane,
        }
    }
}

/// The fields that a command uses.
#[derive(Clone, Copy)]
pub struct Used {
    pub t: bool,
    pub a: Source,
    pub b: Source,
    /// The row whose number is the whole number in u.
    pub u: Source,
    /// How many of the values u, v, w are numbers, from u on.
    pub values: usize,
}

/// The fields that a command uses; none for a number that is no command.
pub fn used(number: u32) -> Option<Used> {
    static TABLE: [Used; COMMANDS as usize] = table();
    TABLE.get(number as usize).copied()
}

/// Whether a command changes the sheet where it is done: it writes a row, or takes a command back.
pub fn changes(number: u32) -> bool {
    number == TAKE_BACK || used(number).is_some_and(|used| used.t)
}

const fn table() -> [Used; COMMANDS as usize] {
    let mut table = [fields(0); COMMANDS as usize];
    let mut number = 0;
    while number < COMMANDS {
        table[number as usize] = fields(number);
        number += 1;
    }
    table
}

const fn fields(number: u32) -> Used {
    Used {
        t: matches!(number, 0..=24 | 34 | 36),
        a: match number {
            2..=21 | 25..=31 => Source::PointOrDirection,
            22..=24 => Source::Direction,
            32 => Source::Any,
            34..=36 => Source::Point,
            37 => Source::Plane,
            _ => Source::Unused,
        },
        b: match number {
            3..=7 | 9 | 11..=15 | 19 | 20 | 25 | 27 | 28 | 31 => Source::PointOrDirection,
            22 | 23 | 34 | 36 => Source::Direction,
            35 => Source::Plane,
            _ => Source::Unused,
        },
        u: if number == 36 { Source::Plane } else { Source::Unused },
        values: match number {
            1 | 9 => 3,
            10 => 2,
            8 | 13 | 14 | 23 => 1,
            _ => 0,
        },
    }
}

impl Used {
    /// Whether a used row is above `last`; 24 uses row t + 1 too.
    pub fn row_above(&self, command: &Command, last: u32) -> bool {
        let highest = if command.number == 24 { last - 1 } else { last };
        (self.t && command.t > highest)
            || (self.a.is_used() && command.a > last)
            || (self.b.is_used() && command.b > last)
            || (self.u.is_used() && command.values[0] > last)
    }

    /// Whether every used value is finite, in 10 also 0 ≤ u ≤ v, in 23 also u from 0.25 to 4.
    pub fn values_allowed(&self, command: &Command) -> bool {
        let [u, v, _] = command.values.map(f32::from_bits);
        let finite = command.values[..self.values].iter().all(|&bits| f32::from_bits(bits).is_finite());
        finite
            && match command.number {
                10 => 0.0 <= u && u <= v,
                23 => (0.25..=4.0).contains(&u),
                _ => true,
            }
    }
}
