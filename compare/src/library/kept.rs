//! Sheets that are kept over calls of every kind: one command by `bench_step`, one line by `bench_respond`, a list by `bench_run_on`, all on
//! the same lent words.

use super::calls::{Calls, Room};
use super::lists::part;
use super::{Account, Library, ANSWER};
use crate::sheet::lines;
use crate::sheet::{Command, ROWS};
use crate::sitting::{named, Sitting};
use crate::tally::Tally;
use crate::values::Draw;

/// One line in so many is malformed.
const MALFORMED: u32 = 8;

/// Too few words, or too little room for the answers, is lent once in so many calls.
const TOO_LITTLE: u32 = 8;

/// There is less room than this beyond the answers: a line has up to 60 bytes.
const SPARE: u32 = 18;

/// How many commands a list has at most. One turn in so many is a list; of the others half are commands and half are lines.
const LIST: u32 = 40;
const LISTS: u32 = 19;

/// The sheet is moved to other words once in so many turns.
const MOVED: u32 = 64;

/// A line comes with its line feed, and a list with a part of a command behind it, once in so many times, before it comes as it should.
const MISTAKEN: u32 = 16;

/// Keeps a sheet for each named list, one for the named lines, then as many as `count` commands and lines need.
pub fn compare(library: &Library, account: &mut Account, tally: &mut Tally, seed: u64, count: u64) {
    let calls = Calls::new(library, account, tally, Draw::new(seed));
    let mut kept = Kept { calls, sitting: Sitting::new(seed, MALFORMED), sheets: 0, commands: 0, lines: 0, listed: 0 };
    kept.run_named();
    let mut left = count;
    while left > 0 {
        left -= kept.run_sheet(left);
    }
    let Kept { calls, sheets, commands, lines, listed, .. } = kept;
    println!(
        "{sheets} sheets kept: {commands} commands one by one, {lines} lines, {listed} commands in lists; 9 refuses {} calls",
        calls.refused
    );
}

struct Kept<'a> {
    calls: Calls<'a>,
    sitting: Sitting,
    sheets: u64,
    commands: u64,
    lines: u64,
    listed: u64,
}

impl Kept<'_> {
    /// Runs the commands of each named list one by one on a sheet of its own, and the named lines on another.
    fn run_named(&mut self) {
        for list in named::lists() {
            self.fresh();
            list.iter().for_each(|command| self.step(command));
        }
        self.fresh();
        let mut lines = Vec::new();
        self.sitting.named(&mut lines);
        lines.split_inclusive(|&byte| byte == b'\n').for_each(|line| self.line(&line[..line.len() - 1]));
    }

    /// Keeps a sheet for at most so many commands and lines, then shows all its rows and asks for the offset of each. Tells how many they were.
    fn run_sheet(&mut self, most: u64) -> u64 {
        self.fresh();
        let turns = self.sitting.begin(most);
        let mut left = turns;
        while left > 0 {
            if self.calls.draw.once_in(MOVED) {
                self.calls.move_sheet();
            }
            left -= if self.calls.draw.once_in(LISTS) {
                let length = u64::from(self.calls.draw.below(LIST + 1)).min(left);
                let list: Vec<Command> = (0..length).map(|_| self.sitting.command_of_any_size()).collect();
                self.list(&list);
                length
            } else if self.calls.draw.once_in(2) {
                let command = self.sitting.command_of_any_size();
                self.step(&command);
                1
            } else {
                let mut line = Vec::new();
                self.sitting.line(&mut line);
                self.line(&line[..line.len() - 1]);
                1
            };
        }
        (0..ROWS).for_each(|a| self.step(&Command::shows(a)));
        (0..ROWS).for_each(|a| self.step(&Command::offset_of(a)));
        turns
    }

    fn fresh(&mut self) {
        self.sheets += 1;
        self.calls.fresh();
    }

    fn step(&mut self, command: &Command) {
        self.commands += 1;
        self.until_enough(ANSWER, |calls, room| calls.step(command, room));
    }

    fn line(&mut self, line: &[u8]) {
        self.lines += 1;
        if self.calls.draw.once_in(MISTAKEN) {
            let with_line_feed = [line, b"\n"].concat();
            self.until_enough(lines::ANSWER, |calls, room| calls.respond(&with_line_feed, room));
        }
        self.until_enough(lines::ANSWER, |calls, room| calls.respond(line, room));
    }

    fn list(&mut self, list: &[Command]) {
        self.listed += list.len() as u64;
        let needed = list.len() * ANSWER;
        if self.calls.draw.once_in(MISTAKEN) {
            let behind = part(&mut self.calls.draw);
            self.until_enough(needed, |calls, room| calls.run_on(list, &behind, room));
        }
        self.until_enough(needed, |calls, room| calls.run_on(list, &[], room));
    }

    /// Calls with too few words, too little room for the answers, or both, as often as is drawn, and then with enough.
    fn until_enough(&mut self, needed: usize, mut call: impl FnMut(&mut Calls, Room)) {
        loop {
            let draw = &mut self.calls.draw;
            let few_words = draw.once_in(TOO_LITTLE);
            let little_room = needed > 0 && draw.once_in(TOO_LITTLE);
            let answers = if little_room { draw.below(needed as u32) } else { needed as u32 + draw.below(SPARE) };
            let sheet = self.calls.words() as u32;
            let words = if few_words { self.calls.draw.below(sheet) as usize } else { self.calls.all_words() };
            call(&mut self.calls, Room { words, answers: answers as usize });
            if !few_words && !little_room {
                return;
            }
        }
    }
}
