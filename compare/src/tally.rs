//! Runs command lines on a plain sheet and keeps account: outcomes of each command, the worst directions, the Rust's assertions.

use crate::check::Rust;
use crate::exact::{dot, off_one, Size};
use crate::outcomes::{can_have, outcome, ABOVE, MALFORMED, OUTCOMES};
use crate::scales::Scales;
use crate::sheet::lines::{read, write_answer};
use crate::sheet::{changes, Answer, Command, Kind, Refusal, Row, Sheet, TAKE_BACK};

/// Demand 3: squared lengths of directions and normals are within 2^-18 of 1, dot products of 24's directions at most 2^-16.
const LENGTH_BOUND: u32 = 18;
const DOT_BOUND: u32 = 16;

pub struct Tally {
    sheet: Sheet,
    pub counts: [[u64; OUTCOMES]; MALFORMED + 1],
    /// How far the exact squared length of a direction or a normal was from 1, at most.
    pub length: Size,
    /// The largest exact dot product of two of the directions that a 24 read and wrote.
    pub dot: Size,
    /// How the vectors were scaled that 2 made directions of.
    pub scales: Scales,
    /// Numbers that are not finite in rows that were written or brought back.
    pub not_finite: u64,
    /// The commands at which the Rust panicked: where its assertions are on, one of them was broken.
    pub panics: Vec<Command>,
}

impl Rust for Tally {
    fn answer_all(&mut self, lines: &[u8], out: &mut Vec<u8>) {
        for line in lines.split_inclusive(|&byte| byte == b'\n') {
            let command = line.strip_suffix(b"\n").and_then(read);
            write_answer(&self.answer(command), out);
        }
    }

    fn number(line: &[u8]) -> Option<u32> {
        line.strip_suffix(b"\n").and_then(read).map(|command| command.number)
    }
}

impl Default for Tally {
    fn default() -> Tally {
        let counts = [[0; OUTCOMES]; MALFORMED + 1];
        let (least, scales) = (Size::default(), Scales::default());
        Tally { sheet: Sheet::fresh(), counts, length: least, dot: least, scales, not_finite: 0, panics: Vec::new() }
    }
}

impl Tally {
    /// Takes a fresh sheet, for another list of commands. The account goes on.
    pub fn take_fresh_sheet(&mut self) {
        self.sheet = Sheet::fresh();
    }

    /// The rows as the commands so far leave them.
    pub fn rows(&self) -> &[Row] {
        self.sheet.rows()
    }

    /// Answers the command of a line, or refuses a line that has none.
    pub fn answer(&mut self, command: Option<Command>) -> Answer {
        let Some(command) = command else {
            self.counts[MALFORMED][Refusal::Form as usize] += 1;
            return Answer::refused(Refusal::Form);
        };
        let read = self.sheet.rows().get(command.a as usize).map(|row| row.numbers());
        let Some(answer) = self.sheet.try_run(&command) else {
            self.panics.push(command);
            return Answer::refused(Refusal::Result);
        };
        self.counts[(command.number as usize).min(ABOVE)][outcome(&answer)] += 1;
        if answer.refusal == 0 && changes(command.number) {
            // 24 writes the row behind t too, and 33 may bring that one back
            let count = if matches!(command.number, 24 | TAKE_BACK) { 2 } else { 1 };
            self.look_at(answer.row, count);
        }
        if answer.refusal == 0 && command.number == 2 {
            self.scales.note(read.expect("a source is a row"));
        }
        if answer.refusal == 0 && command.number == 24 {
            let [first, second] = [command.t, command.t + 1].map(|t| self.sheet.rows()[t as usize].numbers());
            let read = read.expect("a source is a row");
            for size in [dot(read, first), dot(read, second), dot(first, second)] {
                self.dot = self.dot.max(size);
            }
        }
        answer
    }

    /// Looks at so many rows from row t on, which were written or brought back.
    fn look_at(&mut self, t: u32, count: usize) {
        for row in self.sheet.rows().iter().skip(t as usize).take(count) {
            self.not_finite += row.numbers().iter().chain(&[row.fourth()]).filter(|x| !x.is_finite()).count() as u64;
            if matches!(row.kind(), Kind::Direction | Kind::Plane) {
                self.length = self.length.max(off_one(row.numbers()));
            }
        }
    }

    /// The commands and the outcomes that they can have and did not.
    pub fn missing(&self) -> Vec<(usize, usize)> {
        self.cells().filter(|&(row, outcome)| can_have(row, outcome) && self.counts[row][outcome] == 0).collect()
    }

    /// The commands and the outcomes that they had and should not.
    pub fn impossible(&self) -> Vec<(usize, usize)> {
        self.cells().filter(|&(row, outcome)| !can_have(row, outcome) && self.counts[row][outcome] != 0).collect()
    }

    /// Whether all that demand 3 says of the rows held, no assertion was broken, and enough vectors for 2 had every exponent.
    pub fn sound(&self) -> bool {
        let bounded = self.length <= Size::power(LENGTH_BOUND) && self.dot <= Size::power(DOT_BOUND);
        let as_it_should_be = self.not_finite == 0 && self.panics.is_empty() && self.impossible().is_empty();
        bounded && as_it_should_be && self.scales.sound()
    }

    fn cells(&self) -> impl Iterator<Item = (usize, usize)> {
        (0..self.counts.len()).flat_map(|row| (0..OUTCOMES).map(move |outcome| (row, outcome)))
    }
}
