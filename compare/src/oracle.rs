//! The Rust's answer to a call line, with the refusals of docs/FUNCTIONS.md in their order.

use crate::calls::{called_by, find, Form, Function, MOST_ARGUMENTS, MOST_RESULTS};
use crate::check::Rust;
use crate::decimal;

const NONE: u32 = 0;
const MALFORMED: u32 = 1;
const UNKNOWN: u32 = 2;
const INDEX: u32 = 10;

/// The Rust's side where `probe` is compared.
pub struct Oracle;

impl Rust for Oracle {
    fn answer_all(&mut self, lines: &[u8], out: &mut Vec<u8>) {
        answer_all(lines, out);
    }

    fn number(line: &[u8]) -> Option<u32> {
        called_by(line).map(|function| function.number)
    }
}

/// Appends the answers to call lines. Bytes after the last line feed are one more line, a malformed one.
pub fn answer_all(lines: &[u8], out: &mut Vec<u8>) {
    for line in lines.split_inclusive(|&byte| byte == b'\n') {
        match line.strip_suffix(b"\n") {
            Some(line) => answer(line, out),
            None => put(out, MALFORMED, &[]),
        }
    }
}

/// Appends the answer to a call line, which stands here without its line feed.
fn answer(line: &[u8], out: &mut Vec<u8>) {
    let mut numbers = [0; 1 + MOST_ARGUMENTS];
    let Some(count) = read(line, &mut numbers) else {
        return put(out, MALFORMED, &[]);
    };
    let Some(function) = find(numbers[0]) else {
        return put(out, UNKNOWN, &[]);
    };
    if count != 1 + function.arguments {
        return put(out, MALFORMED, &[]);
    }
    let arguments = &numbers[1..count];
    if exceeds(function, arguments, &[Form::Bool, Form::Mask], 1) {
        return put(out, MALFORMED, &[]);
    }
    if exceeds(function, arguments, &[Form::Index], 2) {
        return put(out, INDEX, &[0; MOST_RESULTS][..function.gives]);
    }
    let results = (function.call)(arguments);
    put(out, NONE, &results[..function.gives]);
}

/// Reads the numbers of a line as far as there is room, and counts them all. None if the line is malformed.
pub fn read(line: &[u8], numbers: &mut [u32]) -> Option<usize> {
    let mut count = 0;
    for field in line.split(|&byte| byte == b' ') {
        let n = decimal::read(field)?;
        if count < numbers.len() {
            numbers[count] = n;
        }
        count += 1;
    }
    Some(count)
}

/// Whether a number of an argument of one of the forms is above `most`.
fn exceeds(function: &Function, arguments: &[u32], forms: &[Form], most: u32) -> bool {
    let mut rest = arguments;
    for form in function.takes {
        let (own, others) = rest.split_at(form.count());
        if forms.contains(form) && own.iter().any(|&n| n > most) {
            return true;
        }
        rest = others;
    }
    false
}

/// Appends an answer line.
fn put(out: &mut Vec<u8>, refusal: u32, results: &[u32]) {
    decimal::write(out, refusal);
    for &n in results {
        out.push(b' ');
        decimal::write(out, n);
    }
    out.push(b'\n');
}
