//! The plain sheet called as include/bench.h has the library called, for the tests of the comparison.

use compare::library::Library;
use compare::sheet::lines::{read, write_answer};
use compare::sheet::{changes, Answer, Command, Refusal, Row, Sheet, ROWS};
use std::cell::RefCell;

/// The words of a row, and of a sheet here: the rows, and the place of the sheet among those that there were, of which place 0 is the fresh one.
pub const ROW: usize = 5;
const PLACE: usize = ROWS as usize * ROW;
pub const WORDS: usize = PLACE + 1;

thread_local! {
    static SHEETS: RefCell<Vec<Sheet>> = RefCell::new(vec![Sheet::fresh()]);
}

pub const LENT: u32 = Refusal::Lent as u32;
pub const FORM: u32 = Refusal::Form as u32;

pub const RIGHT: Library = Library { words: || WORDS, fresh, step, respond, run_on, run };

pub fn fresh(words: &mut [u32]) -> u32 {
    if words.len() < WORDS {
        return LENT;
    }
    words[..WORDS].fill(0);
    0
}

/// One command on the sheet that lies in the words.
fn answer(words: &mut [u32], command: &Command) -> Answer {
    if words.len() < WORDS {
        return Answer::refused(Refusal::Lent);
    }
    SHEETS.with_borrow_mut(|sheets| {
        let mut sheet = sheets[words[PLACE] as usize].clone();
        let answer = sheet.run(command);
        if answer.refusal == 0 && changes(command.number) {
            words[PLACE] = sheets.len() as u32;
            let rows: Vec<u32> = sheet.rows().iter().flat_map(Row::words).collect();
            words[..PLACE].copy_from_slice(&rows);
            sheets.push(sheet);
        }
        answer
    })
}

pub fn step(words: &mut [u32], numbers: &[u32; 7], out: &mut [u32]) -> u32 {
    if out.len() < 6 {
        return LENT;
    }
    let answer = answer(words, &Command::of(*numbers));
    out[..6].copy_from_slice(&answer.numbers());
    answer.refusal
}

pub fn respond(words: &mut [u32], line: &[u8], out: &mut [u8]) -> u32 {
    if out.len() < 43 {
        return LENT;
    }
    let answer = match read(line) {
        Some(command) => answer(words, &command),
        None => Answer::refused(Refusal::Form),
    };
    let mut text = Vec::new();
    write_answer(&answer, &mut text);
    out[..43].copy_from_slice(&text);
    answer.refusal
}

pub fn run_on(words: &mut [u32], commands: &[u32], out: &mut [u32]) -> u32 {
    if words.len() < WORDS || out.len() < commands.len() / 7 * 6 {
        return LENT;
    }
    if commands.len() % 7 != 0 {
        return FORM;
    }
    for (seven, six) in commands.chunks_exact(7).zip(out.chunks_exact_mut(6)) {
        step(words, seven.try_into().unwrap(), six);
    }
    0
}

pub fn run(commands: &[u32], out: &mut [u32]) -> u32 {
    run_on(&mut [0; WORDS], commands, out)
}
