//! Sittings by a seed: command lines that build on rows of earlier ones, reach every outcome of every command, and malformed lines.

mod arrows;
mod back;
mod choose;
mod lists;
mod measured;
pub mod named;
mod numbers;
mod plan;
mod planes;
pub mod remembered;
mod spoil;
pub mod stored;

use crate::sheet::lines::{read, write_command};
use crate::sheet::{used, Command, Sheet, COMMANDS, TAKE_BACK};
use crate::values::{float, Draw};
use back::{brought_back, brought_back_plane, Last, Manner};
use choose::{row_fields, unused_row, RowFields};
use numbers::values;
use plan::Plan;
use std::collections::VecDeque;

/// How many lines a piece has.
const PIECE: u64 = 16_384;

/// Within a run of 33 another command comes once in so many times.
const WITHIN: u32 = 128;

/// Once in so many times the points of a length or a distance are made for it.
const MEASURED: u32 = 4;

/// Once in so many times that command 2 is drawn, an arrow is made for it.
const ARROWS: u32 = 2;

/// Once in so many times that a command on planes is drawn, a plan of several commands comes in its place.
const PLANES: u32 = 8;

/// Numbers of commands that there are not.
const NO_COMMANDS: [u32; 10] = [COMMANDS, COMMANDS + 1, 40, 63, 64, 99, 100, 255, 256, 999];

pub struct Sitting {
    draw: Draw,
    /// The sheet as the lines so far leave it, and the last of their commands.
    sheet: Sheet,
    last: Last,
    /// The commands that come next, where some are planned.
    planned: VecDeque<Command>,
    /// One line in so many is malformed; none if it is 0.
    malformed: u32,
    /// How commands are taken back, and how many 33 of a run are still to come.
    manner: Manner,
    back: u32,
}

impl Sitting {
    pub fn new(seed: u64, malformed: u32) -> Sitting {
        let (draw, sheet, planned) = (Draw::new(seed), Sheet::fresh(), VecDeque::new());
        Sitting { draw, sheet, last: None, planned, malformed, manner: Manner::Searching, back: 0 }
    }

    /// A sitting to be timed: no line is malformed, and little is taken back.
    pub fn ordinary(seed: u64) -> Sitting {
        Sitting { manner: Manner::Ordinary, ..Sitting::new(seed, 0) }
    }

    /// The pieces of `count` lines. If there are malformed ones, the last line has no line feed.
    pub fn pieces(mut self, count: u64) -> impl Iterator<Item = Vec<u8>> {
        (0..count.div_ceil(PIECE)).map(move |piece| {
            let size = PIECE.min(count - piece * PIECE);
            let mut lines = Vec::new();
            (0..size).for_each(|_| self.line(&mut lines));
            if self.malformed > 0 && (piece + 1) * PIECE >= count {
                lines.pop();
            }
            lines
        })
    }

    /// Appends a line with its line feed.
    pub fn line(&mut self, out: &mut Vec<u8>) {
        let command = self.command();
        let start = out.len();
        write_command(&command, out);
        if self.malformed > 0 && self.draw.once_in(self.malformed) {
            let line = spoil::spoiled(&mut self.draw, &out[start..out.len() - 1]);
            out.truncate(start);
            out.extend_from_slice(&line);
            out.push(b'\n');
        }
        self.run_line(&out[start..out.len() - 1]);
    }

    fn run_line(&mut self, line: &[u8]) {
        if let Some(command) = read(line) {
            self.run(&command);
        }
    }

    fn run(&mut self, command: &Command) {
        self.last = self.sheet.try_run(command).map(|answer| (command.number, answer));
    }

    /// A command: one that is planned, a 33 while a run of them lasts, else one that works; now and then such a one comes within a run.
    fn command(&mut self) -> Command {
        if let Some(command) = self.planned.pop_front() {
            return command;
        }
        if self.back == 0 {
            self.back = self.manner.run(&mut self.draw, self.last);
        }
        if self.back == 0 || self.draw.once_in(WITHIN) {
            return self.work();
        }
        self.back -= 1;
        self.command_of(TAKE_BACK)
    }

    /// A command that works on the rows, or has any fields. Points are made more often than the rest is done, so that the rows stay fresh.
    fn work(&mut self) -> Command {
        let d = &mut self.draw;
        match d.below(64) {
            0 => any_command(d),
            1 => Command { number: d.one_of(&NO_COMMANDS), ..any_command(d) },
            2..=16 => self.command_of(1),
            _ => {
                let number = self.number();
                self.plan(number);
                self.planned.pop_front().unwrap_or_else(|| self.command_of(number))
            }
        }
    }

    /// The number of any command but 33; often that of one that reads a plane, where a plane was brought back.
    fn number(&mut self) -> u32 {
        let d = &mut self.draw;
        if brought_back_plane(self.last) && d.once_in(2) {
            return d.one_of(&[35, 36, 37]);
        }
        let number = d.below(COMMANDS - 1);
        number + u32::from(number >= TAKE_BACK)
    }

    /// Plans commands in place of one of a number, now and then: points that are made for a length or a distance, with the measure; arrows, with
    /// their directions; planes.
    fn plan(&mut self, number: u32) {
        let mut plan = Plan::new(&mut self.draw);
        match (number, self.manner) {
            (26, _) if plan.d.once_in(MEASURED) => measured::length(&mut plan),
            (27, _) if plan.d.once_in(MEASURED) => measured::distance(&mut plan, self.sheet.rows()),
            (2, Manner::Searching) if plan.d.once_in(ARROWS) => arrows::direction(&mut plan),
            (34..=37, Manner::Searching) if plan.d.once_in(PLANES) => planes::any(&mut plan),
            (34..=37, Manner::Ordinary) if plan.d.once_in(PLANES) => planes::parapet(&mut plan),
            _ => {}
        }
        self.planned = plan.commands.into();
    }

    /// A command of a number.
    fn command_of(&mut self, number: u32) -> Command {
        let d = &mut self.draw;
        let used = used(number).expect("there is the command");
        let brought_back = brought_back(self.last).filter(|_| d.once_in(2));
        let RowFields { t, a, b, u } = row_fields(d, &self.sheet, number, &used, brought_back);
        let rows = [a, b].map(|row| self.sheet.rows()[(row % 64) as usize].numbers().map(f32::to_bits));
        let [first, v, w] = values(d, number, &used, rows, self.sheet.rows());
        Command { number, t, a, b, values: [u.unwrap_or(first), v, w] }
    }
}

/// A command with any fields.
fn any_command(d: &mut Draw) -> Command {
    let number = if d.once_in(2) { d.below(COMMANDS) } else { d.below(1000) };
    let [t, a, b] = [(); 3].map(|()| unused_row(d));
    Command { number, t, a, b, values: [(); 3].map(|()| if d.once_in(2) { d.word() } else { float(d) }) }
}
