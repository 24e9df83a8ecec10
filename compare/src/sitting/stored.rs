//! The stored sitting: the named lines, then lines by a seed until every command has had every outcome that it can have and vectors have
//! been scaled with every outcome, and short lines whose answers are longer than what is lent for them at once.

use super::named::LISTING;
use super::Sitting;
use crate::check::Rust;
use crate::tally::Tally;

const SEED: u64 = 1;
const MALFORMED: u32 = 24;

/// How many lines there are at least, and how many at most.
const LEAST: u64 = 2500;
const MOST: u64 = 20_000;

/// The program reads 65,536 bytes at once and has room for the answers of 1,524 lines. So many short lines in a row have more than that
/// in one read, however the reads fall.
const SHORT: usize = 2 * 1_600;

/// The stored sitting. It ends with the short lines, and a good line that has no line feed.
pub fn stored() -> Vec<u8> {
    let mut sitting = Sitting::new(SEED, MALFORMED);
    let mut lines = Vec::new();
    sitting.named(&mut lines);
    let mut tally = Tally::default();
    let mut count = answered(&mut tally, &lines);
    let all_reached = |tally: &Tally| tally.missing().is_empty() && tally.scales.has_each_outcome();
    while count < LEAST || (!all_reached(&tally) && count < MOST) {
        let start = lines.len();
        sitting.line(&mut lines);
        count += answered(&mut tally, &lines[start..]);
    }
    lines.extend_from_slice(&[b'\n'; SHORT]);
    lines.extend_from_slice(LISTING.lines().next().expect("it has three").as_bytes());
    lines
}

/// Answers lines, and counts them.
fn answered(tally: &mut Tally, lines: &[u8]) -> u64 {
    tally.answer_all(lines, &mut Vec::new());
    lines.iter().filter(|&&byte| byte == b'\n').count() as u64
}
