//! Reads the named cases of cases.txt: commands with the answers that the documents give them.

use crate::sheet::{Answer, Command};

/// The text of cases.txt.
pub const CASES: &str = include_str!("../cases.txt");

pub struct Case {
    /// The sentence above the case, and its text.
    pub title: &'static str,
    pub text: &'static str,
    pub command: Command,
    /// The answer; none where it is only asked that the command is done.
    pub answer: Option<Answer>,
}

/// The cases of a text: a title after `#`; a command, and its answer after `=>`. The head of cases.txt says more.
pub fn cases(text: &'static str) -> Vec<Case> {
    let mut title = "";
    let mut cases = Vec::new();
    for line in text.lines().filter(|line| !line.is_empty()) {
        if let Some(words) = line.strip_prefix('#') {
            title = words.trim();
            continue;
        }
        let (command, answer) = line.split_once("=>").map_or((line, None), |(command, answer)| (command, Some(answer)));
        let command = Command::of(words(command));
        let answer = answer.map(|answer| {
            let [refusal, row, kind, x, y, z] = words(answer);
            Answer { refusal, row, kind, values: [x, y, z] }
        });
        cases.push(Case { title, text: line, command, answer });
    }
    cases
}

/// The numbers of a text, filled up with zeros.
fn words<const N: usize>(text: &str) -> [u32; N] {
    let mut numbers = [0; N];
    for (place, word) in text.split_whitespace().enumerate() {
        numbers[place] = number(word).unwrap_or_else(|| panic!("{word} is no number of a case"));
    }
    numbers
}

/// A number: a decimal with a point, a power of two, bits in hexadecimal, or a whole number.
fn number(word: &str) -> Option<u32> {
    let (sign, size) = word.strip_prefix('-').map_or((0, word), |size| (0x8000_0000, size));
    if let Some(power) = size.strip_prefix("2^") {
        return Some(sign | (2f64.powi(power.parse().ok()?) as f32).to_bits());
    }
    if let Some(bits) = word.strip_prefix("0x") {
        return u32::from_str_radix(bits, 16).ok();
    }
    if word.contains('.') {
        return word.parse::<f32>().ok().map(f32::to_bits);
    }
    word.parse().ok()
}
