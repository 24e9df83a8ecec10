//! The stored sitting of crates/bench: its answers are the plain sheet's, and it reaches every outcome of every command and of scaling.

use compare::check::Rust;
use compare::sheet::stream::Stream;
use compare::sitting::named::LISTING;
use compare::tally::Tally;

const INPUT: &[u8] = include_bytes!("../../crates/bench/stdin");
const ANSWERS: &[u8] = include_bytes!("../../crates/bench/stdout");

#[test]
fn stored_answers_are_the_plain_sheets() {
    let (mut stream, mut out) = (Stream::default(), Vec::new());
    stream.feed(INPUT, &mut out);
    stream.end(&mut out);
    assert!(out == ANSWERS);
}

#[test]
fn the_stored_sitting_reaches_every_outcome() {
    let mut tally = Tally::default();
    tally.answer_all(INPUT, &mut Vec::new());
    assert!(INPUT.starts_with(LISTING.as_bytes()));
    assert!(ANSWERS.len() / 43 >= 2000 && ANSWERS.len() % 43 == 0);
    assert!(tally.missing().is_empty() && tally.scales.has_each_outcome() && tally.sound(), "\n{tally}");
}
