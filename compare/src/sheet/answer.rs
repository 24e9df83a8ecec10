//! Answers of the plain sheet, and why a line or a command is refused.

use super::Row;

/// The kinds of answers that show no row: a number, a whole number, a root that is exact. Rows have the other kinds, 0 to 2 and 6.
const NUMBER: u32 = 3;
const WHOLE: u32 = 4;
pub const EXACT_ROOT: u32 = 5;

/// An answer. The values of all kinds but 4 are bits of f32 numbers.
#[derive(Clone, Copy, Debug, PartialEq, Eq)]
pub struct Answer {
    pub refusal: u32,
    pub row: u32,
    pub kind: u32,
    pub values: [u32; 3],
}

impl Answer {
    /// What is returned with a refusal: the number, row 0, kind 0, zeros.
    pub fn refused(refusal: Refusal) -> Answer {
        Answer { refusal: refusal as u32, row: 0, kind: 0, values: [0; 3] }
    }

    /// A row as it is now: its number, kind and first three numbers, those of a plane's normal.
    pub fn shows(row: u32, shown: &Row) -> Answer {
        Answer { refusal: 0, row, kind: shown.kind() as u32, values: shown.numbers().map(f32::to_bits) }
    }

    /// Row 0, kind 3, the number first.
    pub fn number(x: f32) -> Answer {
        Answer { refusal: 0, row: 0, kind: NUMBER, values: [x.to_bits(), 0, 0] }
    }

    /// Row 0, kind 5, the number first.
    pub fn exact_root(x: f32) -> Answer {
        Answer { kind: EXACT_ROOT, ..Answer::number(x) }
    }

    /// Row 0, kind 4, the whole number itself.
    pub fn whole(n: u32) -> Answer {
        Answer { refusal: 0, row: 0, kind: WHOLE, values: [n, 0, 0] }
    }

    /// The six numbers of the answer.
    pub fn numbers(&self) -> [u32; 6] {
        let [x, y, z] = self.values;
        [self.refusal, self.row, self.kind, x, y, z]
    }
}

/// Why a line or a command is refused, or a call of the library.
#[derive(Clone, Copy, Debug, PartialEq, Eq)]
#[repr(u32)]
pub enum Refusal {
    /// Not 45 bytes before a line feed, or a field ill formed; a list that ends within a command.
    Form = 1,
    /// A command above 37.
    Number = 2,
    /// A used row above 63, that of u in 36 among them, or t = 63 in 24.
    Row = 3,
    /// A source empty, a plane in 2 to 31, no direction in 22 to 24, or in 34 to 37 not of the kind asked for.
    Source = 4,
    /// A used value not finite, in 10 not 0 ≤ u ≤ v, in 23 u outside 0.25 to 4.
    Value = 5,
    /// A point, a number or an offset not finite.
    Result = 6,
    /// In 2 three zeros, which have no direction; in 11 and 12 with b a point 1/(b·b) not finite; in 28 a `length_squared` of zero.
    Direction = 7,
    /// In 23 `refract`'s k below zero.
    Reflection = 8,
    /// Too little lent: bytes for an answer line, numbers for answers, words for a sheet.
    Lent = 9,
    /// Nothing is remembered that 33 could take back.
    History = 11,
    /// In 36 a computed n·b of zero.
    Parallel = 12,
}
