//! Lists that have a sheet remember as many commands as it can, and one more, and that take back all of them and one more.

use crate::sheet::{Command, REMEMBERED, ROWS, TAKE_BACK};

/// 33, which uses none of its fields: rows that there are not, and values that are not finite, are as good as others.
const BACK: [Command; 3] = [
    Command { number: TAKE_BACK, t: 0, a: 0, b: 0, values: [0; 3] },
    Command { number: TAKE_BACK, t: 999, a: 64, b: 999, values: [0x7fc0_0000, 0x7f80_0000, u32::MAX] },
    Command { number: TAKE_BACK, t: 63, a: 1, b: 62, values: [0xff80_0000, 1, 0x3f80_0000] },
];

/// The lists, each for a fresh sheet. In each the last 33 finds nothing.
pub fn lists() -> [Vec<Command>; 5] {
    let all = REMEMBERED as u32;
    [
        backs(1).collect(),
        points(0, all).chain(backs(all + 1)).collect(),
        points(0, all + 1).chain(backs(all + 1)).collect(),
        points(0, all + 1).chain(backs(1)).chain(points(all + 1, 1)).chain(backs(all + 1)).collect(),
        pairs(all + 1).chain(backs(all + 1)).collect(),
    ]
}

/// So many 33 in a row.
fn backs(count: u32) -> impl Iterator<Item = Command> {
    BACK.into_iter().cycle().take(count as usize)
}

/// So many points from the one of this number on, on row after row.
fn points(first: u32, count: u32) -> impl Iterator<Item = Command> {
    (first..first + count).map(|n| Command::of([1, n % ROWS, 0, 0, (n as f32).to_bits(), n, 0]))
}

/// A direction in row 0, then so many pairs: each is made from the row before it, and its first direction goes over the second of the pair
/// before.
fn pairs(count: u32) -> impl Iterator<Item = Command> {
    let direction = [Command::of([1, 0, 0, 0, 0x3f80_0000, 0, 0]), Command::of([2, 0, 0, 0, 0, 0, 0])];
    let pair = |n: u32| Command::of([24, 1 + n % (ROWS - 2), n % (ROWS - 2), 0, 0, 0, 0]);
    direction.into_iter().chain((0..count).map(pair))
}
