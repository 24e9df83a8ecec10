//! The judge of pairs of vectors: it finds answers that are against document 02 (b), and answers that are different.

use compare::calls::NAN;
use compare::check::{compare, Comparison, Rust};
use compare::judge::{Answers, Judge};
use compare::pairs::{pieces, write, Pair};
use std::process::Command;

/// The pair of (3, -4, 0) and (-3, 4, 12).
const PAIR: Pair = [[0x40400000, 0xc0800000, 0], [0xc0400000, 0x40800000, 0x41400000]];

/// Its squared lengths and lengths: 25 and 169, 5 and 13.
const RIGHT: Answers = [0x41c80000, 0x43290000, 0x40a00000, 0x41500000];

fn calls() -> Vec<u8> {
    let mut lines = Vec::new();
    write(&PAIR, &mut lines);
    lines
}

fn lines(answers: Answers) -> String {
    answers.map(|n| format!("0 {n}\n")).concat()
}

/// The judge after the pair with these answers.
fn judge(rust: &str, program: &str) -> Judge {
    let mut judge = Judge::default();
    judge.look_at(&calls(), rust.as_bytes(), program.as_bytes());
    judge
}

/// Whether answers are found to be against it, the Rust's as well as the program's.
fn against(answers: &str) -> bool {
    let right = lines(RIGHT);
    [judge(answers, &right), judge(&right, answers), judge(answers, answers)]
        .iter()
        .all(|judge| judge.against == 1 && judge.kept.len() == 1 && !judge.sound())
}

/// Compares a program over so many pairs.
fn compared(program: &mut Command, count: u64) -> (Comparison, Judge) {
    let mut judge = Judge::default();
    let comparison = compare(program, &mut judge, pieces(1, count), &[]).expect("the program starts");
    (comparison, judge)
}

#[test]
fn right_answers_are_not_against() {
    let mut answers = Vec::new();
    Judge::default().answer_all(&calls(), &mut answers);
    assert_eq!(answers, lines(RIGHT).as_bytes());
    let judge = judge(&lines(RIGHT), &lines(RIGHT));
    assert!((judge.compared, judge.against) == (1, 0) && judge.kept.is_empty() && judge.sound());
}

#[test]
fn equal_lengths_are_not_against() {
    let [squared, _, length, _] = RIGHT;
    let equal = lines([squared, squared, length, length]);
    assert_eq!(judge(&equal, &equal).against, 0);
}

#[test]
fn a_shorter_second_is_against() {
    let [first_squared, second_squared, first, second] = RIGHT;
    assert!(against(&lines([second_squared, first_squared, first, second])));
    assert!(against(&lines([first_squared, second_squared, second, first])));
    assert!(against(&lines([first_squared, first_squared - 1, first, second])));
    assert!(against(&lines([first_squared, second_squared, first, first - 1])));
}

#[test]
fn a_nan_is_against() {
    for place in 0..RIGHT.len() {
        for nan in [NAN, 0x7f800001, 0xffffffff] {
            let mut answers = RIGHT;
            answers[place] = nan;
            assert!(against(&lines(answers)), "{answers:08x?}");
        }
    }
}

#[test]
fn no_answer_or_one_of_another_form_is_against() {
    let right = lines(RIGHT);
    let last = format!("0 {}\n", RIGHT[3]);
    for other in ["", "0\n", "1\n", "0 7 7\n", "0 0007\n", "x\n", last.trim_end()] {
        assert!(against(&right.replace(&last, other)), "{other:?}");
    }
}

#[test]
fn each_bit_of_an_answer_counts() {
    for (place, bit) in (0..RIGHT.len()).flat_map(|place| (0..32).map(move |bit| (place, bit))) {
        let mut answers = RIGHT;
        answers[place] ^= 1 << bit;
        assert_eq!(judge(&lines(RIGHT), &lines(answers)).kept.len(), 1, "{answers:08x?}");
    }
}

#[test]
fn many_pairs_without_an_outcome_are_not_sound() {
    assert!(Judge { compared: 99_999, ..Judge::default() }.sound());
    assert!(!Judge { compared: 100_000, ..Judge::default() }.sound());
}

#[test]
fn the_rust_as_a_program_is_equal_and_has_each_outcome() {
    let (comparison, judge) = compared(Command::new(env!("CARGO_BIN_EXE_calls")).arg("--answer"), 100_000);
    assert!(comparison.tell_end() && judge.compared == 100_000 && judge.sound() && judge.kept.is_empty(), "\n{judge}");
}

#[test]
fn a_program_with_other_answers_is_against() {
    let (comparison, judge) = compared(&mut Command::new("cat"), 1000);
    assert!(comparison.different == 4000 && judge.against == 1000 && !judge.sound());
}
