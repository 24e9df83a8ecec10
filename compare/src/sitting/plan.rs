//! Commands of a sitting that are planned, one after another. The fields that they do not use hold anything.

use super::choose::unused_row;
use crate::sheet::{used, Command, ROWS};
use crate::values::{Draw, Vector};

pub struct Plan<'a> {
    pub d: &'a mut Draw,
    pub commands: Vec<Command>,
}

impl Plan<'_> {
    pub fn new(d: &mut Draw) -> Plan<'_> {
        Plan { d, commands: Vec::new() }
    }

    /// Different rows.
    pub fn rows<const N: usize>(&mut self) -> [u32; N] {
        let (first, step) = (self.d.below(ROWS), 1 + 2 * self.d.below(ROWS / 2));
        let mut row = first;
        [(); N].map(|()| {
            row = (row + step) % ROWS;
            row
        })
    }

    /// A point into row t.
    pub fn point(&mut self, t: u32, values: Vector) {
        let (a, b) = (unused_row(self.d), unused_row(self.d));
        self.commands.push(Command { number: 1, t, a, b, values });
    }

    /// The direction of a vector into row t.
    pub fn direction(&mut self, t: u32, v: Vector) {
        self.point(t, v);
        self.command(2, t, t, 0);
    }

    /// A command that uses none of the values.
    pub fn command(&mut self, number: u32, t: u32, a: u32, b: u32) {
        let used = used(number).expect("there is the command");
        let d = &mut *self.d;
        let mut field = |is_used: bool, row: u32| if is_used { row } else { unused_row(d) };
        let (t, a, b) = (field(used.t, t), field(used.a.is_used(), a), field(used.b.is_used(), b));
        let values = [(); 3].map(|()| if self.d.once_in(2) { 0 } else { self.d.word() });
        self.commands.push(Command { number, t, a, b, values });
    }

    /// The point where the line from row a along row b meets the plane in row u, into row t.
    pub fn meeting(&mut self, t: u32, a: u32, b: u32, u: u32) {
        self.command(36, t, a, b);
        self.commands.last_mut().expect("it is there").values[0] = u;
    }
}
