//! The named cases of cases.txt: the documents' corners of the sheet and readings of them.

use compare::cases::{cases, CASES};
use compare::sheet::Sheet;

#[test]
fn named_cases_have_their_answers() {
    let mut sheet = Sheet::fresh();
    for case in cases(CASES) {
        let answer = sheet.run(&case.command);
        match case.answer {
            Some(right) => assert_eq!(answer, right, "{}: {}", case.title, case.text),
            None => assert_eq!(answer.refusal, 0, "{}: {}", case.title, case.text),
        }
    }
}

#[test]
fn a_fresh_sheet_is_empty() {
    for row in Sheet::fresh().rows() {
        assert_eq!(row.words(), [0; 5]);
    }
}
