//! Lists of commands by a seed, as a caller of the library gives them: a number or a row may be any of 32 bits, where a line has three
//! columns for it.

use super::Sitting;
use crate::sheet::{Command, Sheet};
use crate::values::Draw;

/// One command in so many has a number or a row of any 32 bits.
const WIDE: u32 = 64;

/// The lengths up to which lists are drawn.
const LONGEST: [u32; 8] = [4, 64, 64, 64, 1000, 1000, 1000, 20_000];

impl Sitting {
    /// Takes a fresh sheet, and tells how many commands it is to have, at most `most`: few, or enough to fill all rows, or to fill them many
    /// times.
    pub fn begin(&mut self, most: u64) -> u64 {
        (self.sheet, self.last, self.back) = (Sheet::fresh(), None, 0);
        self.planned.clear();
        let longest = self.draw.one_of(&LONGEST);
        u64::from(1 + self.draw.below(longest)).min(most)
    }

    /// A list of at most `most` commands for a fresh sheet.
    pub fn list(&mut self, most: u64) -> Vec<Command> {
        let length = self.begin(most);
        (0..length).map(|_| self.command_of_any_size()).collect()
    }

    /// A list of so many commands as lines have them.
    pub fn long_list(&mut self, count: usize) -> Vec<Command> {
        let next = |sitting: &mut Sitting| {
            let command = sitting.command();
            sitting.run(&command);
            command
        };
        (0..count).map(|_| next(self)).collect()
    }

    /// A command for the sheet as those before it leave it.
    pub fn command_of_any_size(&mut self) -> Command {
        let mut command = self.command();
        if self.draw.once_in(WIDE) {
            let Command { number, t, a, b, .. } = &mut command;
            let places = [number, t, a, b];
            let place = self.draw.below(4) as usize;
            *places[place] = wide(&mut self.draw, *places[place]);
        }
        self.run(&command);
        command
    }
}

/// A number made from one below 1000, with the same last 8, 16 or 31 bits, or any.
fn wide(d: &mut Draw, n: u32) -> u32 {
    let any = d.word();
    d.one_of(&[n + (1 << 8), n + (1 << 16), n | 1 << 31, u32::MAX - n, u32::MAX, any])
}
