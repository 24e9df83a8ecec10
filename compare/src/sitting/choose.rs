//! Row fields of a sitting: rows of the right kind, rows brought back, rows that coincide, the last rows, rows that there are not.

use crate::sheet::{Kind, Sheet, Source, Used, ROWS};
use crate::values::Draw;

/// A row above the last one, where a row is used, comes once in so many times.
const ABOVE: u32 = 64;

/// A source of another kind than the command takes, or of any, comes once in so many times.
const ANY_SOURCE: u32 = 16;

/// The kinds of such sources; none stands for any.
const ANY_KIND: [Option<Kind>; 7] = [
    Some(Kind::Empty),
    Some(Kind::Empty),
    Some(Kind::Point),
    Some(Kind::Direction),
    Some(Kind::Plane),
    Some(Kind::Plane),
    None,
];

/// Once in so many times 0 empties a row that is empty already.
const EMPTIED: u32 = 4;

/// The row fields of a command, and the row that is to stand in u.
pub struct RowFields {
    pub t: u32,
    pub a: u32,
    pub b: u32,
    pub u: Option<u32>,
}

/// The row fields of a command. If a row was brought back, it or the one behind it is a source: the first that may be of its kind.
pub fn row_fields(d: &mut Draw, sheet: &Sheet, number: u32, used: &Used, brought_back: Option<u32>) -> RowFields {
    let wanted = [used.a, used.b, used.u];
    let mut sources = wanted.map(|wanted| source(d, sheet, number, wanted));
    if let Some(row) = brought_back {
        let row = (row + d.below(2)).min(ROWS - 1);
        let place = wanted.iter().position(|wanted| wanted.is_used() && wanted.takes(kind(sheet, row)));
        sources[place.unwrap_or(0)] = row;
    }
    let [a, b, u] = sources;
    if number == 0 && d.once_in(EMPTIED) {
        return RowFields { t: find(d, |row| kind(sheet, row) == Kind::Empty), a: unused_row(d), b: unused_row(d), u: None };
    }
    let t = if d.once_in(16) { d.one_of(&[0, 62, 63]) } else { d.below(ROWS) };
    let alike = used.a == used.b || !used.b.is_used();
    let (t, a, b, u) = match d.below(12) {
        0 if alike => (a, a, a, u),
        1 => (a, a, b, u),
        2 => (b, a, b, u),
        3 if alike => (t, a, a, u),
        // in 24 the second direction goes where the source was
        4 => (a.saturating_sub(1), a, b, u),
        // in 36 the point goes where the plane was
        5 if used.u.is_used() => (u, a, b, u),
        6 if used.u.is_used() => (a, a, b, a),
        _ => (t, a, b, u),
    };
    RowFields {
        t: field(d, used.t, t),
        a: field(d, used.a.is_used(), a),
        b: field(d, used.b.is_used(), b),
        u: used.u.is_used().then(|| named_row(d, u)),
    }
}

/// A row field that may hold anything.
pub fn unused_row(d: &mut Draw) -> u32 {
    match d.below(4) {
        0 => d.below(1000),
        1 => d.one_of(&[63, 64, 65, 128, 255, 256, 999]),
        _ => d.below(ROWS),
    }
}

/// A row, now and then another number; any if the field is not used.
fn field(d: &mut Draw, used: bool, row: u32) -> u32 {
    if !used {
        unused_row(d)
    } else if d.once_in(ABOVE) {
        d.one_of(&[64, 65, 100, 128, 999])
    } else {
        row
    }
}

/// A row whose number stands in u; now and then another number: one that has the row in its last bits, the bits of 1, or the largest.
fn named_row(d: &mut Draw, row: u32) -> u32 {
    if d.once_in(ABOVE) {
        d.one_of(&[64, 999, row + (1 << 6), row + (1 << 8), row + (1 << 16), row | 1 << 31, 1f32.to_bits(), u32::MAX])
    } else {
        row
    }
}

/// A source: most often a row of a kind that the command takes.
fn source(d: &mut Draw, sheet: &Sheet, number: u32, wanted: Source) -> u32 {
    if d.once_in(ANY_SOURCE) {
        let any = d.one_of(&ANY_KIND);
        return find(d, |row| any.is_none_or(|any| kind(sheet, row) == any));
    }
    let wanted = match wanted {
        Source::PointOrDirection if number == 2 || d.once_in(4) => Source::Point,
        Source::Unused => Source::Any,
        _ => wanted,
    };
    find(d, |row| wanted.takes(kind(sheet, row)))
}

/// The next row that fits, from any on; that one if none does.
fn find(d: &mut Draw, fits: impl Fn(u32) -> bool) -> u32 {
    let start = d.below(ROWS);
    (0..ROWS).map(|i| (start + i) % ROWS).find(|&row| fits(row)).unwrap_or(start)
}

fn kind(sheet: &Sheet, row: u32) -> Kind {
    sheet.rows()[row as usize].kind()
}
