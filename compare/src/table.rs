//! The table of a sitting: how often each command had each outcome, and the worst values; and how counts are written, here and elsewhere.

use crate::outcomes::{can_have, ABOVE, EXACT, MALFORMED, PLANE};
use crate::sheet::COMMANDS;
use crate::tally::Tally;
use std::fmt;

/// The outcomes that there are: done, done with an answer of kind 5 and of kind 6, then in the order in which the documents have them checked.
const ORDER: [usize; 13] = [0, EXACT, PLANE, 1, 2, 3, 11, 4, 5, 8, 7, 12, 6];

/// The table, the worst values, and what should not have been.
impl fmt::Display for Tally {
    fn fmt(&self, f: &mut fmt::Formatter) -> fmt::Result {
        write!(f, "command      done   kind 5   kind 6")?;
        for outcome in &ORDER[3..] {
            write!(f, "{outcome:>9}")?;
        }
        writeln!(f)?;
        for (row, counts) in self.counts.iter().enumerate() {
            match row {
                ABOVE => write!(f, "{:<9}", format!("above {}", COMMANDS - 1))?,
                MALFORMED => write!(f, "malformed")?,
                _ => write!(f, "{row:<9}")?,
            }
            outcomes(f, row, counts, &ORDER)?;
        }
        writeln!(
            f,
            "exact squared length of a direction or a normal: at most {:.4} times 2^-24 from 1 (64 allowed)",
            self.length.steps()
        )?;
        writeln!(f, "exact dot product of 24's directions: at most {:.4} times 2^-24 (256 allowed)", self.dot.steps())?;
        write!(f, "{}", self.scales)?;
        writeln!(f, "numbers not finite in rows written or brought back: {}", self.not_finite)?;
        if cfg!(feature = "glam-assert") {
            writeln!(f, "broken assertions of the Rust: {}", self.panics.len())?;
        }
        for command in self.panics.iter().take(10) {
            writeln!(f, "the Rust panicked at {command:?}")?;
        }
        Ok(())
    }
}

/// The rest of a row of a table: how often it had each of these outcomes.
pub fn outcomes(f: &mut fmt::Formatter, row: usize, counts: &[u64], order: &[usize]) -> fmt::Result {
    for &outcome in order {
        match (counts[outcome], can_have(row, outcome)) {
            (0, false) => write!(f, "{:>9}", "-")?,
            (0, true) => write!(f, "{:>9}", "none")?,
            (count, true) => write!(f, "{count:>9}")?,
            (count, false) => write!(f, "{:>9}", format!("!{count}"))?,
        }
    }
    writeln!(f)
}

/// The rest of a line: how often there was what each of these names says.
pub fn named(f: &mut fmt::Formatter, names: &[&str], counts: &[u64]) -> fmt::Result {
    for (place, (name, &count)) in names.iter().zip(counts).enumerate() {
        let before = if place == 0 { "" } else { ", " };
        let count = if count == 0 { "none".to_string() } else { count.to_string() };
        write!(f, "{before}{name} {count}")?;
    }
    writeln!(f)
}
