//! Sheets with a mistake, held against the answers of a sitting by a seed.

use compare::sheet::{Answer, Command, Kind, Row, Sheet};
use compare::sitting::Sitting;

const COMMANDS: usize = 100_000;

/// One command on a mistaken sheet.
pub type Step = fn(&mut Sheet, &Command) -> Answer;

/// The commands of a sitting, with the answers of the plain sheet.
pub fn sitting() -> Vec<(Command, Answer)> {
    let mut sheet = Sheet::fresh();
    let list = Sitting::new(1, 0).long_list(COMMANDS);
    list.into_iter().map(|command| (command, sheet.run(&command))).collect()
}

/// Whether a mistaken sheet has another answer somewhere.
pub fn shows(sitting: &[(Command, Answer)], step: impl Fn(&mut Sheet, &Command) -> Answer) -> bool {
    let mut sheet = Sheet::fresh();
    sitting.iter().any(|(command, answer)| step(&mut sheet, command) != *answer)
}

/// Asks that sheets without a mistake have the answers of the plain sheet.
pub fn show_none(sheets: &[Step]) {
    let sitting = sitting();
    assert!(sheets.iter().all(|step| !shows(&sitting, step)));
}

/// Asks that each of the mistakes shows.
pub fn show_each(mistakes: &[(&str, Step)]) {
    let sitting = sitting();
    for (mistake, step) in mistakes {
        assert!(shows(&sitting, step), "{mistake} is not shown");
    }
}

pub fn refused(refusal: u32) -> Answer {
    Answer { refusal, row: 0, kind: 0, values: [0; 3] }
}

/// The row of a field, if there is one and it is of a kind.
pub fn row(sheet: &Sheet, row: u32, kind: Kind) -> Option<Row> {
    sheet.rows().get(row as usize).filter(|row| row.kind() == kind).copied()
}
