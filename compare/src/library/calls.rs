//! One call on a kept sheet, with as much lent as is asked for: its result, its answers, and each word and number that has to stay as it was.

use super::lent::Lent;
use super::lists::list_refusal;
use super::{Account, Library, ANSWER};
use crate::sheet::lines::{self, read, write_answer};
use crate::sheet::{changes, Answer, Command, Refusal, Row};
use crate::tally::Tally;
use crate::values::Draw;
use std::fmt::Debug;

/// There are fewer words than this behind a sheet.
const BEHIND: u32 = 17;

/// The calls on one sheet after another.
pub struct Calls<'a> {
    library: &'a Library,
    account: &'a mut Account,
    tally: &'a mut Tally,
    pub draw: Draw,
    sheet: Lent<u32>,
    /// How many calls 9 refuses.
    pub refused: u64,
}

/// What is lent to a call: words of the sheet, and room for answers.
#[derive(Clone, Copy)]
pub struct Room {
    pub words: usize,
    pub answers: usize,
}

/// What include/bench.h has of a call: its result, what it writes for answers, and whether it changes a row.
struct Right<T> {
    refusal: u32,
    answers: Vec<T>,
    changes: bool,
}

impl<T> Right<T> {
    /// Refused, and nothing is written.
    fn refused(refusal: Refusal) -> Right<T> {
        Right { refusal: refusal as u32, answers: Vec::new(), changes: false }
    }
}

impl<'a> Calls<'a> {
    pub fn new(library: &'a Library, account: &'a mut Account, tally: &'a mut Tally, mut draw: Draw) -> Calls<'a> {
        let sheet = Lent::new(&mut draw, (library.words)(), Draw::word);
        Calls { library, account, tally, draw, sheet, refused: 0 }
    }

    /// How many words a sheet has, and how many there are with those behind it.
    pub fn words(&self) -> usize {
        (self.library.words)()
    }

    pub fn all_words(&self) -> usize {
        self.sheet.len()
    }

    /// Takes other words, and makes them a fresh sheet, after a try with too few of them.
    pub fn fresh(&mut self) {
        self.tally.take_fresh_sheet();
        self.sheet = self.other_words();
        let few = self.draw.below(self.words() as u32) as usize;
        let result = (self.library.fresh)(self.sheet.first(few));
        self.note(|| format!("bench_fresh, {few} words lent"), result, Refusal::Lent as u32, None);
        let zeros = vec![0; self.words()];
        self.sheet.is_to_hold(&zeros);
        let result = (self.library.fresh)(self.sheet.all());
        self.note(|| "bench_fresh".to_string(), result, 0, None);
    }

    /// Copies the sheet to other words, which are lent from now on.
    pub fn move_sheet(&mut self) {
        let words = self.words();
        let mut other = self.other_words();
        other.first(words).copy_from_slice(self.sheet.first(words));
        other.may_hold(words);
        self.sheet = other;
    }

    fn other_words(&mut self) -> Lent<u32> {
        let length = self.words() + self.draw.below(BEHIND) as usize;
        Lent::new(&mut self.draw, length, Draw::word)
    }

    pub fn step(&mut self, command: &Command, room: Room) {
        let right = if room.answers < ANSWER {
            Right::refused(Refusal::Lent)
        } else {
            let (answer, changes) = self.answer(Some(command), room);
            Right { refusal: answer.refusal, answers: answer.numbers().to_vec(), changes }
        };
        let mut answers = Lent::new(&mut self.draw, room.answers, Draw::word);
        let result = (self.library.step)(self.sheet.first(room.words), &command.numbers(), answers.all());
        self.compare(|| format!("bench_step {:?}", command.numbers()), room, result, right, answers);
    }

    pub fn respond(&mut self, line: &[u8], room: Room) {
        let right = if room.answers < lines::ANSWER {
            Right::refused(Refusal::Lent)
        } else {
            let (answer, changes) = self.answer(read(line).as_ref(), room);
            let mut answers = Vec::new();
            write_answer(&answer, &mut answers);
            Right { refusal: answer.refusal, answers, changes }
        };
        let called = || format!("bench_respond \"{:.60}\" of {} bytes", line.escape_ascii().to_string(), line.len());
        let mut given = Lent::holding(&mut self.draw, line, any_byte);
        let mut answers = Lent::new(&mut self.draw, room.answers, any_byte);
        let result = (self.library.respond)(self.sheet.first(room.words), given.all(), answers.all());
        self.compare_given(called, given);
        self.compare(called, room, result, right, answers);
    }

    /// A list, with a part of a command behind it or nothing.
    pub fn run_on(&mut self, list: &[Command], behind: &[u32], room: Room) {
        let numbers: Vec<u32> = list.iter().flat_map(Command::numbers).chain(behind.iter().copied()).collect();
        let refusal = if room.words < self.words() { Some(Refusal::Lent) } else { list_refusal(numbers.len(), room.answers) };
        let right = match refusal {
            Some(refusal) => Right::refused(refusal),
            None => self.answers(list, room),
        };
        let called = || format!("bench_run_on {} numbers", numbers.len());
        let mut given = Lent::holding(&mut self.draw, &numbers, Draw::word);
        let mut answers = Lent::new(&mut self.draw, room.answers, Draw::word);
        let result = (self.library.run_on)(self.sheet.first(room.words), given.all(), answers.all());
        self.compare_given(called, given);
        self.compare(called, room, result, right, answers);
    }

    /// The answers to a list that is run.
    fn answers(&mut self, list: &[Command], room: Room) -> Right<u32> {
        let mut right = Right { refusal: 0, answers: Vec::new(), changes: false };
        for command in list {
            let (answer, changes) = self.answer(Some(command), room);
            right.answers.extend(answer.numbers());
            right.changes |= changes;
        }
        right
    }

    /// The answer to a command, or to a line that has none, and whether a row is changed; 9 for a command where the words are too few.
    fn answer(&mut self, command: Option<&Command>, room: Room) -> (Answer, bool) {
        match command {
            Some(_) if room.words < self.words() => (Answer::refused(Refusal::Lent), false),
            Some(command) => {
                let answer = self.tally.answer(Some(*command));
                (answer, answer.refusal == 0 && changes(command.number))
            }
            None => (self.tally.answer(None), false),
        }
    }

    /// Holds a call against what is right. Where it changes a row, the words of all rows have to be those of the plain sheet afterwards, and the
    /// words behind them, where the sheet remembers, may hold anything.
    fn compare<T: Copy + Debug + PartialEq>(
        &mut self,
        called: impl Fn() -> String,
        room: Room,
        result: u32,
        right: Right<T>,
        mut answers: Lent<T>,
    ) {
        self.refused += u64::from(right.refusal == Refusal::Lent as u32);
        answers.is_to_hold(&right.answers);
        if right.changes {
            self.sheet.may_hold(self.words());
            let rows: Vec<u32> = self.tally.rows().iter().flat_map(Row::words).collect();
            self.sheet.is_to_hold(&rows);
        }
        let called = || format!("{}, {} words and room for {} lent", called(), room.words, room.answers);
        self.note(called, result, right.refusal, answers.wrong());
    }

    /// Looks that what a call may only read is as it was.
    fn compare_given<T: Copy + Debug + PartialEq>(&mut self, called: impl Fn() -> String, given: Lent<T>) {
        if let Some(wrong) = given.wrong() {
            self.account.note(false, || format!("{} changes what it is given: {wrong}", called()));
        }
    }

    /// Notes a call by its result, the words of the sheet, and what is wrong in its answers.
    fn note(&mut self, called: impl Fn() -> String, result: u32, right: u32, wrong: Option<String>) {
        let words = self.sheet.wrong();
        self.account.note(result == right && words.is_none() && wrong.is_none(), || {
            let [words, answers] = [&words, &wrong].map(|wrong| wrong.as_deref().unwrap_or("as they have to be"));
            format!("{}\nright {right}, library {result}\nwords: {words}\nanswers: {answers}", called())
        });
    }
}

fn any_byte(draw: &mut Draw) -> u8 {
    draw.word() as u8
}
