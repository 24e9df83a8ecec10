//! Judges pairs of vectors: larger components make no vector shorter (document 02, b), by the Rust's answers and by the program's own.

use crate::calls::NAN;
use crate::check::{lines_of, Rust};
use crate::oracle::{answer_all, read, Oracle};
use crate::pairs::Pair;
use crate::values::Vector;
use crate::{decimal, pairs};
use std::fmt;

/// How many pairs are kept.
const KEPT: usize = 10;

/// Among so many pairs each outcome has to be seen.
const ENOUGH: u64 = 100_000;

/// What may be seen at a pair.
const OUTCOMES: [&str; 7] = [
    "the second has an infinity",
    "a component of the first is not zero, its square is",
    "the second is finite, its squared length is not",
    "the first is not zero, its length is",
    "the sizes of the components differ, the lengths do not",
    "the sizes of the components differ, the squared lengths do not",
    "the first is shorter than the second",
];

/// The squared lengths of the first and of the second vector, then their lengths, in bits.
pub type Answers = [u32; pairs::LINES];

/// A pair, and the answers to its calls.
pub struct Judged {
    pub pair: Pair,
    pub rust: Answers,
    pub program: Answers,
}

#[derive(Default)]
pub struct Judge {
    pub compared: u64,
    pub against: u64,
    /// The first pairs that are against or have different answers.
    pub kept: Vec<Judged>,
    /// How often each outcome was seen.
    pub counts: [u64; OUTCOMES.len()],
}

impl Rust for Judge {
    fn answer_all(&mut self, lines: &[u8], out: &mut Vec<u8>) {
        answer_all(lines, out);
    }

    fn number(line: &[u8]) -> Option<u32> {
        Oracle::number(line)
    }

    fn look_at(&mut self, lines: &[u8], rust: &[u8], program: &[u8]) {
        let (mut lines, mut rust, mut program) = (lines_of(lines), lines_of(rust), lines_of(program));
        while let [Some(first), Some(second), ..] = four(&mut lines) {
            let pair = [first, second].map(vector_of);
            self.judge(Judged { pair, rust: four(&mut rust).map(number_of), program: four(&mut program).map(number_of) });
        }
    }
}

impl Judge {
    fn judge(&mut self, judged: Judged) {
        self.compared += 1;
        for (count, seen) in self.counts.iter_mut().zip(judged.outcomes()) {
            *count += u64::from(seen);
        }
        let against = !(in_order(&judged.rust) && in_order(&judged.program));
        self.against += u64::from(against);
        if (against || judged.rust != judged.program) && self.kept.len() < KEPT {
            self.kept.push(judged);
        }
    }

    /// Whether no pair was against, and each outcome was seen if the pairs were enough.
    pub fn sound(&self) -> bool {
        self.against == 0 && (self.compared < ENOUGH || !self.counts.contains(&0))
    }
}

impl Judged {
    /// Which outcomes the pair and the Rust's answers show.
    fn outcomes(&self) -> [bool; OUTCOMES.len()] {
        let [first, second] = self.pair.map(|vector| vector.map(|component| f32::from_bits(component).abs()));
        let [first_squared, second_squared, first_length, second_length] = self.rust.map(f32::from_bits);
        let infinite = second.contains(&f32::INFINITY);
        [
            infinite,
            first.iter().any(|&x| x != 0.0 && x * x == 0.0),
            !infinite && second_squared == f32::INFINITY,
            first != [0.0; 3] && first_length == 0.0,
            first != second && first_length == second_length,
            first != second && first_squared == second_squared,
            first_length < second_length,
        ]
    }
}

/// Whether neither is smaller for the second vector. A NaN is not in order.
fn in_order(answers: &Answers) -> bool {
    let [first_squared, second_squared, first_length, second_length] = answers.map(f32::from_bits);
    first_squared <= second_squared && first_length <= second_length
}

/// The next lines of a pair.
fn four<'a>(lines: &mut impl Iterator<Item = &'a [u8]>) -> [Option<&'a [u8]>; pairs::LINES] {
    [(); pairs::LINES].map(|()| lines.next())
}

/// The vector of a call line.
fn vector_of(line: &[u8]) -> Vector {
    let mut numbers = [0; 4];
    line.strip_suffix(b"\n").and_then(|line| read(line, &mut numbers)).expect("a call line is well formed");
    [numbers[1], numbers[2], numbers[3]]
}

/// The number of an answer line; a NaN if the call was refused or the answer has another form or is missing.
fn number_of(line: Option<&[u8]>) -> u32 {
    let number = |line: &[u8]| decimal::read(line.strip_prefix(b"0 ")?.strip_suffix(b"\n")?);
    line.and_then(number).unwrap_or(NAN)
}

/// The outcomes and how often they were seen.
impl fmt::Display for Judge {
    fn fmt(&self, f: &mut fmt::Formatter) -> fmt::Result {
        for (outcome, count) in OUTCOMES.iter().zip(self.counts) {
            let count = if count == 0 { "none".to_string() } else { count.to_string() };
            writeln!(f, "{outcome:<64}{count:>9}")?;
        }
        Ok(())
    }
}

impl fmt::Display for Judged {
    fn fmt(&self, f: &mut fmt::Formatter) -> fmt::Result {
        for (name, [x, y, z]) in ["first", "second"].iter().zip(self.pair) {
            writeln!(f, "{name:<9} {x:08x} {y:08x} {z:08x}")?;
        }
        for (name, answers) in [("the Rust", self.rust), ("program", self.program)] {
            let [first_squared, second_squared, first_length, second_length] = answers;
            write!(f, "{name:<9} length_squared {first_squared:08x} {second_squared:08x}")?;
            writeln!(f, "   length {first_length:08x} {second_length:08x}")?;
        }
        Ok(())
    }
}
