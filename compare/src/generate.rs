//! Call lines by a seed: every function in turn, and lines that have to be refused among them.

use crate::arrows::arrow;
use crate::calls::{called_by, Form, Function};
use crate::decimal;
use crate::squares::{for_distance, for_length, for_root};
use crate::values::{far_apart, float, measure, related, related_vector, unit_vector, vector, Draw, Vector};

/// How many lines a piece has.
const PIECE: u64 = 65_536;

/// One line in so many is spoiled.
const SPOILED: u32 = 32;

/// The functions that are meant for vectors of length 1.
const FOR_UNIT_VECTORS: [u32; 7] = [76, 79, 80, 97, 98, 101, 102];

/// Bytes that a spoiled line may have got.
const BYTES: &[u8] = b" 0123456789 \t\r\0-+.,ex\xff";

pub struct Generator {
    draw: Draw,
    functions: Vec<&'static Function>,
    turn: usize,
}

impl Generator {
    /// The lines of a seed, over some of the functions.
    pub fn new(seed: u64, functions: Vec<&'static Function>) -> Generator {
        Generator { draw: Draw::new(seed), functions, turn: 0 }
    }

    /// The pieces of `count` lines. A whole piece ends with a long line, the last piece without a line feed.
    pub fn pieces(mut self, count: u64) -> impl Iterator<Item = Vec<u8>> {
        (0..count.div_ceil(PIECE)).map(move |piece| {
            let size = PIECE.min(count - piece * PIECE);
            let mut lines = Vec::new();
            (1..size).for_each(|_| self.line(&mut lines));
            if size == PIECE {
                self.long_line(&mut lines);
            } else {
                self.line(&mut lines);
            }
            if (piece + 1) * PIECE >= count {
                lines.pop();
            }
            lines
        })
    }

    /// Appends a line with its line feed.
    pub fn line(&mut self, out: &mut Vec<u8>) {
        let function = self.functions[self.turn];
        self.turn = (self.turn + 1) % self.functions.len();
        let start = out.len();
        decimal::write(out, function.number);
        for n in arguments(&mut self.draw, function) {
            out.push(b' ');
            decimal::write(out, n);
        }
        if self.draw.once_in(SPOILED) {
            let line = spoiled(&mut self.draw, &out[start..]);
            if !self.calls_another(&line) {
                out.truncate(start);
                out.extend_from_slice(&line);
            }
        }
        out.push(b'\n');
    }

    /// Appends a line that is longer than any piece that is read at once.
    pub fn long_line(&mut self, out: &mut Vec<u8>) {
        let function = self.draw.one_of(&self.functions);
        decimal::write(out, self.draw.one_of(&[0, function.number]));
        let piece: &[u8] = self.draw.one_of(&[b" 7", b" 4294967295", b" 12 ", b"7"]);
        let end = out.len() + 70_000 + self.draw.below(1000) as usize;
        while out.len() < end {
            out.extend_from_slice(piece);
        }
        out.push(b'\n');
    }

    /// Whether a line calls a function that is none of those to be called.
    fn calls_another(&self, line: &[u8]) -> bool {
        called_by(line).is_some_and(|called| self.functions.iter().all(|function| function.number != called.number))
    }
}

/// Arguments for a function. Now and then a bool is above 1 or an index above 2.
pub fn arguments(d: &mut Draw, function: &Function) -> Vec<u32> {
    match function.number {
        9..=11 | 16 | 120..=123 if d.once_in(2) => own_arguments(d, function.number),
        _ => any_arguments(d, function),
    }
}

/// Arguments that a function has in half of its calls: exponents far apart where it divides with a remainder; where it tells whether a
/// root is exact, one that is or just is not; where it scales a vector, an arrow.
fn own_arguments(d: &mut Draw, number: u32) -> Vec<u32> {
    match number {
        16 => vec![for_root(d)],
        120 => for_length(d).to_vec(),
        121 => for_distance(d).concat(),
        122 | 123 => arrow(d).to_vec(),
        _ => far_apart(d).to_vec(),
    }
}

fn any_arguments(d: &mut Draw, function: &Function) -> Vec<u32> {
    let unit = FOR_UNIT_VECTORS.contains(&function.number);
    let mut numbers: Vec<u32> = Vec::new();
    let mut vectors: Vec<Vector> = Vec::new();
    for form in function.takes {
        match form {
            Form::Float if !vectors.is_empty() && !d.once_in(3) => numbers.push(measure(d, &vectors)),
            Form::Float => numbers.push(number(d, &numbers)),
            Form::Four => {
                for _ in 0..4 {
                    numbers.push(number(d, &numbers));
                }
            }
            Form::Vector => {
                let v = if !vectors.is_empty() && d.once_in(if unit { 4 } else { 2 }) {
                    related_vector(d, &vectors)
                } else if unit && !d.once_in(4) {
                    unit_vector(d)
                } else {
                    vector(d)
                };
                vectors.push(v);
                numbers.extend(v);
            }
            Form::Bool => numbers.push(up_to(d, 1)),
            Form::Mask => numbers.extend([(); 3].map(|()| up_to(d, 1))),
            Form::Index => numbers.push(up_to(d, 2)),
        }
    }
    numbers
}

/// Any number, or one that has to do with those before it.
fn number(d: &mut Draw, before: &[u32]) -> u32 {
    if before.is_empty() || d.once_in(2) {
        float(d)
    } else {
        related(d, before)
    }
}

/// A number up to `most`, or, now and then, one above it.
fn up_to(d: &mut Draw, most: u32) -> u32 {
    if d.once_in(32) {
        d.one_of(&[most + 1, most + 2, 256, 65536, 0x8000_0000, u32::MAX])
    } else {
        d.below(most + 1)
    }
}

/// A line made from another one by a mistake.
fn spoiled(d: &mut Draw, line: &[u8]) -> Vec<u8> {
    let mut line = line.to_vec();
    let place = d.below(line.len() as u32) as usize;
    let byte = d.one_of(BYTES);
    match d.below(9) {
        0 => line[place] = byte,
        1 => line.insert(place, byte),
        2 => line.push(byte),
        3 => drop(line.remove(place)),
        4 => line.truncate(place),
        // a spare argument
        5 => {
            line.push(b' ');
            decimal::write(&mut line, float(d));
        }
        6 => {
            line.truncate(place);
            line.push(b' ');
            line.extend_from_slice(large(d).to_string().as_bytes());
        }
        // a spare zero before a number
        7 => {
            let before = line.iter().rposition(|&byte| byte == b' ').map_or(0, |blank| blank + 1);
            line.insert(before, b'0');
        }
        // another function, most often an unknown one
        _ => {
            let blank = line.iter().position(|&byte| byte == b' ').unwrap_or(line.len());
            let any = d.word();
            let number = d.one_of(&[0, 17, 29, 37, 39, 124, 257, 65537, u32::MAX, any]);
            line.splice(..blank, number.to_string().into_bytes());
        }
    }
    line
}

/// A number at the end of what fits 32 bits, or above that; taken modulo 2^32 or 2^64 it would be any number.
fn large(d: &mut Draw) -> u128 {
    match d.below(3) {
        0 => 4_294_967_290 + u128::from(d.below(16)),
        1 => u128::from(d.bits()),
        _ => (1 << 64) + u128::from(d.word()),
    }
}
