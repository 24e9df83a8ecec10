//! The lines that every comparison begins with: document 01's listing, the named cases of cases.txt, each field of each command
//! refused, all that can be remembered taken back, malformed lines of each kind.

use super::{remembered, Sitting};
use crate::cases::{cases, CASES};
use crate::sheet::lines::{read, write_command};
use crate::sheet::{used, Command, Source, COMMANDS};
use std::iter;

/// The rows that the named cases leave empty, a point, a direction and a plane.
const EMPTY: u32 = 20;
const POINT: u32 = 22;
const DIRECTION: u32 = 12;
const PLANE: u32 = 21;

/// Document 01's listing.
pub const LISTING: &str = "  1  0  0  0 1077936128 1082130432          0
 26  0  0  0          0          0          0
  2  1  0  0          0          0          0
";

/// Lines with a mistake, and some that look like it. Row 63 is emptied first, and shown last.
const LINES: [&[u8]; 34] = [
    b"  0 63  0  0          0          0          0",
    b"",
    b" ",
    b"                                             ",
    b"  1 63  0  0          1          2",
    b"  1 63  0  0          1          2          ",
    b"  1 63  0  0          1          2          3 ",
    b"   1 63  0  0          1          2          3",
    b"  1 63  0  0          1          2          3\r",
    b"  1 63  0  0          1          2         3\r",
    b"\t 1 63  0  0          1          2          3",
    b"  1 63\t 0  0          1          2          3",
    b"  1 63 \0  0          1          2          3",
    b"  1 63  0  0\0         1          2          3",
    b"  1 63  0  0          1          2          \0",
    b" 01 63  0  0          1          2          3",
    b"  1063  0  0          1          2          3",
    b"  1 63 00  0          1          2          3",
    b"  1 63  0  0         01          2          3",
    b"  1 63  0  0          1          2 4294967296",
    b"  1 63  0  0          1 4294967297          3",
    b"  1 63  0  0 9999999999          2          3",
    b"  1 63  0  0          199999999999          3",
    b"  1 63  0  0          1          204294967295",
    b"  1 63  0  0          1          2 4294967295",
    b"  1 63  0  0          1        1 2          3",
    b"  1 6 3 0  0          1          2          3",
    b"  163   0  0          1          2          3",
    b"  1 63  0  0         +1          2          3",
    b"  1 63  0  0          1         -2          3",
    b"  1 63  0  0          1          2        1.0",
    b"  1 6:  0  0          1          2          3",
    b" 99 63  0  0          1          2         00",
    b" 32  0 63  0          0          0          0",
];

/// The bits of 1 and of infinity.
const ONE: u32 = 0x3f80_0000;
const INFINITY: u32 = 0x7f80_0000;

/// How long a long line is.
const LONG: usize = 100_000;

/// The named lists, each for a fresh sheet: the named commands, and those that take back all that can be remembered.
pub fn lists() -> impl Iterator<Item = Vec<Command>> {
    iter::once(commands()).chain(remembered::lists())
}

/// The named commands: document 01's listing, the named cases, each field of each command refused.
fn commands() -> Vec<Command> {
    let listing = LISTING.lines().map(|line| read(line.as_bytes()).expect("it is well formed"));
    let named = cases(CASES).into_iter().map(|case| case.command);
    listing.chain(named).chain((0..COMMANDS).flat_map(refused)).collect()
}

impl Sitting {
    /// Appends the lines of the named lists, all for one sheet, and malformed lines.
    pub fn named(&mut self, out: &mut Vec<u8>) {
        for command in lists().flatten() {
            write_command(&command, out);
            self.run(&command);
        }
        LINES.iter().for_each(|line| self.given(line, out));
        self.given(&[b' '; LONG], out);
    }

    /// Appends a line that stands here without its line feed.
    fn given(&mut self, line: &[u8], out: &mut Vec<u8>) {
        out.extend_from_slice(line);
        out.push(b'\n');
        self.run_line(line);
    }
}

/// A command with each of its fields in turn as it must not be: a row above 63, a source that is empty or of each kind, a value that is not
/// finite. The other fields are right, and so is each field that the command does not use: 33 is done in each case.
fn refused(number: u32) -> Vec<Command> {
    let used = used(number).expect("there is the command");
    let u = if used.u.is_used() { row_for(used.u) } else { ONE };
    let right = Command { number, t: 1, a: row_for(used.a), b: row_for(used.b), values: [u, ONE, ONE] };
    let mut commands = vec![Command { t: 64, ..right }];
    for row in [64, EMPTY, POINT, DIRECTION, PLANE] {
        commands.push(Command { a: row, ..right });
        commands.push(Command { b: row, ..right });
        if used.u.is_used() {
            commands.push(Command { values: [row, ONE, ONE], ..right });
        }
    }
    for place in 0..3 {
        let mut command = right;
        command.values[place] = INFINITY;
        commands.push(command);
    }
    commands
}

/// A row that is such a source.
fn row_for(source: Source) -> u32 {
    match source {
        Source::Point => POINT,
        Source::Plane => PLANE,
        _ => DIRECTION,
    }
}
