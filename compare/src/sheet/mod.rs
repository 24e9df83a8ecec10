//! Document 01's plain sheet, written from the document over the Rust's own functions: rows, commands, answers, one step. As document 02
//! has it, the sheet takes steps back (request a), says which lengths and distances are exact roots (request c), has planes (request d), gives
//! short and long arrows directions too (request f), and does not ask in 22 to 24 whether there is a direction (request g).

mod answer;
pub mod directions;
mod fields;
mod history;
pub mod lines;
mod planes;
pub mod stream;
mod work;

pub use answer::{Answer, Refusal, EXACT_ROOT};
pub use fields::{changes, used, Source, Used, COMMANDS, TAKE_BACK};
pub use history::REMEMBERED;
pub(crate) use work::refract_k;

use crate::Vec3;
use history::{History, Step};
use std::mem;
use std::panic::{catch_unwind, AssertUnwindSafe};
use work::{work, Effect};

/// How many rows a sheet has.
pub const ROWS: u32 = 64;

/// What a row is.
#[derive(Clone, Copy, Debug, PartialEq, Eq)]
#[repr(u32)]
pub enum Kind {
    Empty = 0,
    Point = 1,
    Direction = 2,
    Plane = 6,
}

/// A row: its kind and four numbers, +0 where it is empty. The first three of a plane are its normal, the fourth is its offset; in other kinds
/// the fourth is +0.
#[derive(Clone, Copy)]
pub struct Row {
    kind: Kind,
    v: Vec3,
    fourth: f32,
}

impl Row {
    const EMPTY: Row = Row { kind: Kind::Empty, v: Vec3::ZERO, fourth: 0.0 };

    fn point(v: Vec3) -> Row {
        Row { kind: Kind::Point, v, fourth: 0.0 }
    }

    fn direction(v: Vec3) -> Row {
        Row { kind: Kind::Direction, v, fourth: 0.0 }
    }

    fn plane(normal: Vec3, offset: f32) -> Row {
        Row { kind: Kind::Plane, v: normal, fourth: offset }
    }

    /// A row of any kind and numbers.
    pub fn of(kind: Kind, [x, y, z]: [f32; 3], fourth: f32) -> Row {
        Row { kind, v: Vec3::new(x, y, z), fourth }
    }

    pub fn kind(&self) -> Kind {
        self.kind
    }

    pub fn numbers(&self) -> [f32; 3] {
        [self.v.x, self.v.y, self.v.z]
    }

    /// The fourth number: the offset of a plane.
    pub fn fourth(&self) -> f32 {
        self.fourth
    }

    /// The kind and the bits of all four numbers.
    pub fn words(&self) -> [u32; 5] {
        let [x, y, z] = self.numbers().map(f32::to_bits);
        [self.kind as u32, x, y, z, self.fourth.to_bits()]
    }
}

/// A command. The values u, v, w are bits of f32 numbers.
#[derive(Clone, Copy, Debug, PartialEq, Eq)]
pub struct Command {
    pub number: u32,
    pub t: u32,
    pub a: u32,
    pub b: u32,
    pub values: [u32; 3],
}

impl Command {
    /// The command of seven numbers.
    pub fn of([number, t, a, b, u, v, w]: [u32; 7]) -> Command {
        Command { number, t, a, b, values: [u, v, w] }
    }

    /// The seven numbers of the command.
    pub fn numbers(&self) -> [u32; 7] {
        let [u, v, w] = self.values;
        [self.number, self.t, self.a, self.b, u, v, w]
    }

    /// The command that shows row a.
    pub fn shows(a: u32) -> Command {
        Command::of([32, 0, a, 0, 0, 0, 0])
    }

    /// The command that answers the offset of plane a.
    pub fn offset_of(a: u32) -> Command {
        Command::of([37, 0, a, 0, 0, 0, 0])
    }
}

/// The sheet: its rows, and what can be taken back.
#[derive(Clone)]
pub struct Sheet {
    rows: [Row; ROWS as usize],
    history: History,
}

impl Default for Sheet {
    fn default() -> Sheet {
        Sheet::fresh()
    }
}

impl Sheet {
    /// A fresh sheet: all rows are empty, and nothing is remembered.
    pub fn fresh() -> Sheet {
        Sheet { rows: [Row::EMPTY; ROWS as usize], history: History::new() }
    }

    pub fn rows(&self) -> &[Row] {
        &self.rows
    }

    /// Runs a command. A refused one changes no row.
    pub fn run(&mut self, command: &Command) -> Answer {
        self.step(command).unwrap_or_else(Answer::refused)
    }

    /// Runs a command, if the Rust does not panic; if it does, no row is changed.
    pub fn try_run(&mut self, command: &Command) -> Option<Answer> {
        catch_unwind(AssertUnwindSafe(|| self.run(command))).ok()
    }

    fn step(&mut self, command: &Command) -> Result<Answer, Refusal> {
        let sources = self.sources(command)?;
        let effect = work(command.number, &sources, command.values.map(f32::from_bits))?;
        Ok(match effect {
            Effect::Empty => self.write(command.t, Row::EMPTY),
            Effect::Point(v) => self.write(command.t, Row::point(v)),
            Effect::Direction(v) => self.write(command.t, Row::direction(v)),
            Effect::Plane(normal, offset) => self.write(command.t, Row::plane(normal, offset)),
            Effect::Pair(first, second) => self.write_pair(command.t, [first, second].map(Row::direction)),
            Effect::Number(x) => Answer::number(x),
            Effect::ExactRoot(x) => Answer::exact_root(x),
            Effect::Whole(n) => Answer::whole(n),
            Effect::Show => Answer::shows(command.a, &sources[0]),
            Effect::TakeBack => self.take_back()?,
        })
    }

    /// The rows a and b, and the row that u names; an empty row for one that is not used. Looks for the refusals 2, 3, 4 and 5, in this
    /// order.
    fn sources(&self, command: &Command) -> Result<[Row; 3], Refusal> {
        let used = used(command.number).ok_or(Refusal::Number)?;
        if used.row_above(command, ROWS - 1) {
            return Err(Refusal::Row);
        }
        let fields = [(used.a, command.a), (used.b, command.b), (used.u, command.values[0])];
        let sources = fields.map(|(source, row)| if source.is_used() { self.rows[row as usize] } else { Row::EMPTY });
        if fields.iter().zip(&sources).any(|((source, _), row)| !source.takes(row.kind)) {
            return Err(Refusal::Source);
        }
        if !used.values_allowed(command) {
            return Err(Refusal::Value);
        }
        Ok(sources)
    }

    /// Writes row t.
    fn write(&mut self, t: u32, row: Row) -> Answer {
        let old = self.put(t, row);
        self.history.remember(Step { t, old, behind: None });
        Answer::shows(t, &row)
    }

    /// Writes the rows t and t + 1.
    fn write_pair(&mut self, t: u32, [first, second]: [Row; 2]) -> Answer {
        let (old, behind) = (self.put(t, first), self.put(t + 1, second));
        self.history.remember(Step { t, old, behind: Some(behind) });
        Answer::shows(t, &first)
    }

    /// Puts back what the latest command that is remembered wrote over, if there is one.
    fn take_back(&mut self) -> Result<Answer, Refusal> {
        let Step { t, old, behind } = self.history.take().ok_or(Refusal::History)?;
        self.put(t, old);
        if let Some(behind) = behind {
            self.put(t + 1, behind);
        }
        Ok(Answer::shows(t, &old))
    }

    /// Puts a row in place of another, which is handed back. Nothing is remembered.
    pub fn put(&mut self, t: u32, row: Row) -> Row {
        mem::replace(&mut self.rows[t as usize], row)
    }
}
