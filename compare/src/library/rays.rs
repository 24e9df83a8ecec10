//! Lines of 22, 23 and 24 through `bench_respond`, on sheets whose rows commands made and on sheets whose rows are lent, held against the plain
//! sheet, which has no refusal 7 for them (document 02, g).

use super::{Account, Library};
use crate::digest::Digest;
use crate::rays::rows::Ray;
use crate::rays::{command, lent, making, Seen, Sort};
use crate::sheet::lines::{write_answer, write_command, ANSWER, LINE};
use crate::sheet::{Answer, Command, Refusal, Row, Sheet};
use crate::values::Draw;
use std::fmt;

/// The words of a row.
const ROW: usize = 5;

/// How an answer line begins that shows refusal 7.
const BY_7: &[u8] = b"  7";

/// A sheet has from so many lines on to twice as many.
const LINES: u32 = 200;

/// What the lines had, how many of them the library answers by 7, and the digest of its answer lines and of the rows that it wrote.
#[derive(Default)]
pub struct Rays {
    pub seen: Seen,
    pub by_7: u64,
    digest: Digest,
}

impl Rays {
    /// Whether no line is answered by 7, and all that was seen is as it should be.
    pub fn sound(&self) -> bool {
        self.by_7 == 0 && self.seen.sound()
    }
}

impl fmt::Display for Rays {
    fn fmt(&self, f: &mut fmt::Formatter) -> fmt::Result {
        write!(f, "{}", self.seen)?;
        writeln!(f, "digest {}", self.digest)
    }
}

/// Holds the answers to `count` lines, and the rows that they write, against the plain sheet's.
pub fn compare(library: &Library, account: &mut Account, seed: u64, count: u64) -> Rays {
    let mut sheets = Sheets {
        library,
        account,
        draw: Draw::new(seed),
        words: vec![0; (library.words)()],
        plain: Sheet::fresh(),
        rays: Rays::default(),
    };
    let mut left = count;
    for sort in [Sort::Made, Sort::Lent].into_iter().cycle() {
        if left == 0 {
            break;
        }
        let lines = u64::from(LINES + sheets.draw.below(LINES)).min(left);
        sheets.begin(sort);
        (0..lines).for_each(|_| sheets.line(sort));
        sheets.end();
        left -= lines;
    }
    sheets.rays
}

/// The library's sheet and the plain one.
struct Sheets<'a> {
    library: &'a Library,
    account: &'a mut Account,
    draw: Draw,
    words: Vec<u32>,
    plain: Sheet,
    rays: Rays,
}

/// What a line has to give and what the library gives: the answer and the result, the answer lines, and the words of row t and the one behind it
/// afterwards.
struct Step {
    /// None where the Rust has no direction.
    answer: Option<Answer>,
    result: u32,
    lines: [Vec<u8>; 2],
    rows: [Vec<u32>; 2],
}

impl Step {
    /// The refusal of the answer, or 0.
    fn refusal(&self) -> u32 {
        self.answer.map_or(Refusal::Direction as u32, |answer| answer.refusal)
    }

    fn is_equal(&self) -> bool {
        let as_answered = self.answer.is_some_and(|answer| answer.refusal == self.result);
        as_answered && self.lines[0] == self.lines[1] && self.rows[0] == self.rows[1]
    }

    fn is_by_7(&self) -> bool {
        self.result == Refusal::Direction as u32 || self.lines[1].starts_with(BY_7)
    }

    fn tell(&self, command: &Command, sources: [Option<Row>; 2]) -> String {
        let sources = sources.map(|row| row.map(|row| row.words()));
        let none = if self.answer.is_none() { "the Rust has no direction\n" } else { "" };
        let [right, given] = [(self.refusal(), 0), (self.result, 1)].map(|(result, which)| {
            let (line, rows) = (self.lines[which].escape_ascii(), &self.rows[which]);
            format!("{result} \"{line}\" {rows:08x?}")
        });
        format!("{:?} on {sources:08x?}: result, answer, rows\n{none}right   {right}\nlibrary {given}", command.numbers())
    }
}

impl Sheets<'_> {
    /// Takes a fresh sheet and makes its rows.
    fn begin(&mut self, sort: Sort) {
        self.plain = Sheet::fresh();
        (self.library.fresh)(&mut self.words);
        match sort {
            Sort::Made => making(&mut self.draw).iter().for_each(|command| self.make(command)),
            Sort::Lent => {
                for (t, row) in lent(&mut self.draw).into_iter().enumerate() {
                    self.plain.put(t as u32, row);
                    self.words[t * ROW..][..ROW].copy_from_slice(&row.words());
                }
            }
        }
    }

    /// Looks that all rows are the plain sheet's.
    fn end(&mut self) {
        let rows: Vec<u32> = self.plain.rows().iter().flat_map(Row::words).collect();
        if let Some(place) = (0..rows.len()).find(|&place| rows[place] != self.words[place]) {
            let row = place / ROW;
            self.account.note(false, || format!("row {row} is another one after the lines of a sheet"));
        }
    }

    /// Runs a line that makes a row. It is not counted unless it is different.
    fn make(&mut self, command: &Command) {
        let step = self.run(command);
        if !step.is_equal() {
            self.account.note(false, || step.tell(command, [None; 2]));
        }
    }

    /// Draws a line and runs it. After a difference the rows that it may have written are the plain sheet's again.
    fn line(&mut self, sort: Sort) {
        let command = command(&mut self.draw, self.plain.rows(), sort);
        let sources = [command.a, command.b].map(|row| self.plain.rows().get(row as usize).copied());
        let step = self.run(&command);
        let Rays { seen, by_7, digest } = &mut self.rays;
        let rows = self.plain.rows().iter().skip(command.t as usize).map(Row::numbers);
        let written: Vec<Ray> = rows.take(count_written(&command, step.refusal())).collect();
        let read = sources.map(|row| row.map_or([0.0; 3], |row| row.numbers()));
        seen.note(&command, step.refusal(), read, &written);
        *by_7 += u64::from(step.is_by_7());
        digest.take(&step.lines[1]);
        let [right, given] = &step.rows;
        digest.take_words(&given[..given.len().min(count_written(&command, step.result) * ROW)]);
        let equal = step.is_equal();
        self.account.note(equal, || step.tell(&command, sources));
        if !equal && !right.is_empty() {
            self.words[command.t as usize * ROW..][..right.len()].copy_from_slice(right);
        }
    }

    /// Runs the line of a command on both.
    fn run(&mut self, command: &Command) -> Step {
        let answer = self.plain.try_run(command);
        let [mut line, mut right] = [LINE + 1, ANSWER].map(Vec::with_capacity);
        write_command(command, &mut line);
        write_answer(&answer.unwrap_or(Answer::refused(Refusal::Direction)), &mut right);
        let mut given = vec![0; ANSWER];
        let result = (self.library.respond)(&mut self.words, &line[..LINE], &mut given);
        let t = command.t as usize;
        let rows: Vec<u32> = self.plain.rows().iter().skip(t).take(2).flat_map(Row::words).collect();
        let given_rows = self.words.iter().copied().skip(t * ROW).take(rows.len()).collect();
        Step { answer, result, lines: [right, given], rows: [rows, given_rows] }
    }
}

/// How many rows a command writes with this refusal, or with 0.
fn count_written(command: &Command, refusal: u32) -> usize {
    match (refusal, command.number) {
        (0, 24) => 2,
        (0, _) => 1,
        _ => 0,
    }
}
