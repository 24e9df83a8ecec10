//! What lines of 22, 23 and 24 had: their outcomes, how near the rows that they read lay to the ends of the bound, ratios, angles and axes,
//! and the worst rows that they wrote.

use super::ratios::{k, LEAST, MOST, ONE};
use super::rows::{Ray, BOUND};
use crate::exact::{dot, is_short, off_one, Size};
use crate::outcomes::{can_have, OUTCOMES};
use crate::sheet::Command;
use crate::table::{named, outcomes};
use std::fmt;

/// The commands.
const FIRST: u32 = 22;
const COMMANDS: usize = 3;

/// Their outcomes, in the order of the table. 7 is none of them.
const ORDER: [usize; 6] = [0, 3, 4, 5, 8, 7];

/// Demand 3: exact dot products of 24's directions are at most 2^-16.
const DOT_BOUND: u32 = 16;

/// Among so many lines each outcome and each sort has to be seen.
const ENOUGH: u64 = 100_000;

/// What may be seen at a row that is read, by its squared length.
const SOURCES: [&str; 5] = [
    "within 4 times 2^-24 of 1 - 2^-18",
    "within 2^-24 of it",
    "within 4 times 2^-24 of 1 + 2^-18",
    "within 2^-24 of it",
    "just 1 + 2^-18",
];

/// What may be seen at the ratio of a 23 that reads two directions.
const RATIOS: [&str; 10] = [
    "0.25 or 4",
    "beside them inside",
    "beside them outside",
    "1",
    "beside 1",
    "others below 1",
    "others above 1",
    "k just below 0",
    "k 0",
    "k just above 0",
];

/// What may be seen at the rows that a 22 or a 23 reads.
const ANGLES: [&str; 6] = ["a = b", "a = -b", "dot product about 1", "about -1", "0", "not 0 but within 2^-10 of it"];

/// What may be seen at the row that a 24 reads.
const AXES: [&str; 6] = ["z about 1", "about -1", "0", "-0", "not 0 but within 2^-20 of it", "x and y zero"];

/// A k is just above or below 0, and a number about 1 or -1, if it is so near.
const JUST: f32 = 1.0 / 1048576.0;
const ABOUT: f32 = 1.0 / 1024.0;

pub struct Seen {
    outcomes: [[u64; OUTCOMES]; COMMANDS],
    sources: [u64; SOURCES.len()],
    ratios: [u64; RATIOS.len()],
    angles: [u64; ANGLES.len()],
    axes: [u64; AXES.len()],
    /// How far the exact squared length of a row that was read, and of one that was written, was from 1 at most.
    read: Size,
    written: Size,
    /// The largest exact dot product of two of the directions that a 24 read and wrote.
    dot: Size,
}

impl Default for Seen {
    fn default() -> Seen {
        Seen {
            outcomes: [[0; OUTCOMES]; COMMANDS],
            sources: [0; SOURCES.len()],
            ratios: [0; RATIOS.len()],
            angles: [0; ANGLES.len()],
            axes: [0; AXES.len()],
            read: Size::default(),
            written: Size::default(),
            dot: Size::default(),
        }
    }
}

impl Seen {
    /// Counts a command: its refusal or 0, what the rows a and b held before it, and what it wrote.
    pub fn note(&mut self, command: &Command, refusal: u32, [a, b]: [Ray; 2], written: &[Ray]) {
        self.outcomes[(command.number - FIRST) as usize][refusal as usize] += 1;
        if command.number == 23 && matches!(refusal, 0 | 5 | 8) {
            count(&mut self.ratios, ratio_has(a, b, command.values[0]));
        }
        if refusal != 0 {
            return;
        }
        self.note_source(a);
        if command.number == 24 {
            count(&mut self.axes, axis_has(a));
            for (v, w) in [(a, written[0]), (a, written[1]), (written[0], written[1])] {
                self.dot = self.dot.max(dot(v, w));
            }
        } else {
            self.note_source(b);
            count(&mut self.angles, angle_has(a, b));
        }
        for &row in written {
            self.written = self.written.max(off_one(row));
        }
    }

    fn note_source(&mut self, row: Ray) {
        let off = off_one(row);
        self.read = self.read.max(off);
        count(&mut self.sources, source_has(off, is_short(row)));
    }

    /// How many commands there were.
    pub fn all(&self) -> u64 {
        self.outcomes.iter().flatten().sum()
    }

    /// Whether rows were as demand 3 has them, and, if the commands were enough, each outcome and each sort was seen.
    pub fn sound(&self) -> bool {
        let bound = Size::power(BOUND);
        let bounded = self.read <= bound && self.written <= bound && self.dot <= Size::power(DOT_BOUND);
        bounded && self.impossible() == 0 && (self.all() < ENOUGH || self.missing() == 0)
    }

    /// How many outcomes the commands had and should not.
    fn impossible(&self) -> usize {
        self.cells().filter(|&(row, outcome, count)| count != 0 && !can_have(row, outcome)).count()
    }

    /// How many outcomes and sorts there could be and were not.
    pub fn missing(&self) -> usize {
        let outcomes = self.cells().filter(|&(row, outcome, count)| count == 0 && can_have(row, outcome)).count();
        let sorts = self.sources.iter().chain(&self.ratios).chain(&self.angles).chain(&self.axes);
        outcomes + sorts.filter(|&&count| count == 0).count()
    }

    /// The commands with their outcomes and how often they had them.
    fn cells(&self) -> impl Iterator<Item = (usize, usize, u64)> + '_ {
        let rows = self.outcomes.iter().enumerate();
        rows.flat_map(|(row, counts)| {
            counts.iter().enumerate().map(move |(outcome, &count)| (row + FIRST as usize, outcome, count))
        })
    }
}

/// Adds to the counts of what is so.
fn count<const N: usize>(counts: &mut [u64; N], has: [bool; N]) {
    counts.iter_mut().zip(has).for_each(|(count, has)| *count += u64::from(has));
}

fn source_has(off: Size, is_short: bool) -> [bool; SOURCES.len()] {
    let bound = Size::power(BOUND);
    let left = bound.steps() - off.steps();
    [
        is_short && left <= 4.0,
        is_short && left <= 1.0,
        !is_short && left <= 4.0,
        !is_short && left <= 1.0,
        !is_short && off == bound,
    ]
}

fn ratio_has(a: Ray, b: Ray, bits: u32) -> [bool; RATIOS.len()] {
    let [end, inside, outside] = [[LEAST, MOST], [LEAST + 1, MOST - 1], [LEAST - 1, MOST + 1]].map(|two| two.contains(&bits));
    let [one, beside_one] = [bits == ONE, bits == ONE - 1 || bits == ONE + 1];
    let other = (LEAST..=MOST).contains(&bits) && !(end || inside || one || beside_one);
    let k = if (LEAST..=MOST).contains(&bits) { k(a, b, bits) } else { 1.0 };
    [
        end,
        inside,
        outside,
        one,
        beside_one,
        other && bits < ONE,
        other && bits > ONE,
        (-JUST..0.0).contains(&k),
        k == 0.0,
        0.0 < k && k <= JUST,
    ]
}

fn angle_has(a: Ray, b: Ray) -> [bool; ANGLES.len()] {
    let dot = b[0] * a[0] + b[1] * a[1] + b[2] * a[2];
    let opposite = a.map(|x| -x);
    [a == b, opposite == b, dot >= 1.0 - ABOUT, dot <= ABOUT - 1.0, dot == 0.0, dot != 0.0 && dot.abs() <= ABOUT]
}

fn axis_has([x, y, z]: Ray) -> [bool; AXES.len()] {
    let zero = [false, true].map(|negative| z == 0.0 && z.is_sign_negative() == negative);
    [z >= 1.0 - ABOUT, z <= ABOUT - 1.0, zero[0], zero[1], z != 0.0 && z.abs() <= JUST, x == 0.0 && y == 0.0]
}

/// The table of outcomes, the sorts, and the worst rows.
impl fmt::Display for Seen {
    fn fmt(&self, f: &mut fmt::Formatter) -> fmt::Result {
        write!(f, "command      done")?;
        ORDER[1..].iter().try_for_each(|outcome| write!(f, "{outcome:>9}"))?;
        writeln!(f)?;
        for (place, counts) in self.outcomes.iter().enumerate() {
            let row = place + FIRST as usize;
            write!(f, "{row:<8}")?;
            outcomes(f, row, counts, &ORDER)?;
        }
        write!(f, "squared lengths of rows read: ")?;
        named(f, &SOURCES, &self.sources)?;
        write!(f, "ratios of 23: ")?;
        named(f, &RATIOS, &self.ratios)?;
        write!(f, "rows of 22 and 23: ")?;
        named(f, &ANGLES, &self.angles)?;
        write!(f, "rows of 24: ")?;
        named(f, &AXES, &self.axes)?;
        let [read, written] = [self.read, self.written].map(|off| off.steps());
        writeln!(f, "exact squared length of a row read: at most {read:.4} times 2^-24 from 1 (64 allowed), of one written: {written:.4}")?;
        writeln!(f, "exact dot product of 24's directions: at most {:.4} times 2^-24 (256 allowed)", self.dot.steps())
    }
}

#[cfg(test)]
mod tests {
    use super::*;

    /// The places of what is so.
    fn places<const N: usize>(has: [bool; N]) -> Vec<usize> {
        (0..N).filter(|&place| has[place]).collect()
    }

    fn source(v: Ray) -> Vec<usize> {
        places(source_has(off_one(v), is_short(v)))
    }

    #[test]
    fn sorts_of_rows() {
        let part = 1.0 / 512.0;
        assert_eq!(source([1.0, 0.0, part]), [2, 3, 4]);
        assert_eq!(source([1.0, 0.0, part.next_down()]), [2, 3]);
        // 1 - 2^-19, whose square is 2^-38 above 1 - 2^-18, and the number above it
        let short = 1.0 - 1.0 / 524288.0;
        assert_eq!(source([0.0, short, 0.0]), [0, 1]);
        assert_eq!(source([0.0, short.next_up(), 0.0]), [0]);
        assert!(source([0.6, 0.8, 0.0]).is_empty());
    }

    #[test]
    fn sorts_of_ratios() {
        let [x, y] = [[1.0, 0.0, 0.0], [0.0, 1.0, 0.0]];
        assert_eq!(places(ratio_has(x, y, LEAST)), [0]);
        assert_eq!(places(ratio_has(x, y, MOST - 1)), [1]);
        assert_eq!(places(ratio_has(x, y, MOST + 1)), [2]);
        assert_eq!(places(ratio_has(x, x, ONE)), [3]);
        assert_eq!(places(ratio_has(x, y, ONE)), [3, 8]);
        assert_eq!(places(ratio_has(x, y, ONE - 1)), [4, 9]);
        assert_eq!(places(ratio_has(x, y, ONE + 1)), [4, 7]);
        assert_eq!(places(ratio_has(x, y, 0.5f32.to_bits())), [5]);
        assert_eq!(places(ratio_has(x, y, 2f32.to_bits())), [6]);
        assert!(places(ratio_has(x, y, f32::NAN.to_bits())).is_empty());
    }

    #[test]
    fn sorts_of_angles_and_axes() {
        let [x, y] = [[1.0, 0.0, 0.0], [0.0, 1.0, 0.0]];
        assert_eq!(places(angle_has(x, x)), [0, 2]);
        assert_eq!(places(angle_has(x, [-1.0, -0.0, 0.0])), [1, 3]);
        assert_eq!(places(angle_has(x, y)), [4]);
        assert_eq!(places(angle_has([JUST, 1.0, 0.0], x)), [5]);
        assert_eq!(places(axis_has([0.0, 0.0, 1.0])), [0, 5]);
        assert_eq!(places(axis_has([0.0, JUST, -1.0])), [1]);
        assert_eq!(places(axis_has(x)), [2]);
        assert_eq!(places(axis_has([1.0, 0.0, -0.0])), [3]);
        assert_eq!(places(axis_has([1.0, 0.0, f32::from_bits(1)])), [4]);
    }

    #[test]
    fn what_is_not_sound() {
        let command = |number| Command::of([number, 2, 0, 1, ONE, 0, 0]);
        let [x, y, z] = [[1.0, 0.0, 0.0], [0.0, 1.0, 0.0], [0.0, 0.0, 1.0]];
        let noted = |number, refusal, sources, written: &[Ray]| {
            let mut seen = Seen::default();
            seen.note(&command(number), refusal, sources, written);
            seen
        };
        let long = [1.0, 1.0 / 512.0, f32::from_bits(1)];
        assert!(noted(22, 0, [x, y], &[x]).sound() && noted(24, 0, [x, y], &[y, z]).sound());
        assert!(!noted(22, 0, [x, y], &[long]).sound() && !noted(22, 0, [x, long], &[x]).sound());
        assert!(!noted(24, 0, [x, y], &[y, x]).sound() && !noted(24, 0, [x, y], &[y, [0.0, 1.0 / 32768.0, 1.0]]).sound());
        assert!(!noted(22, 7, [x, y], &[]).sound() && !noted(22, 8, [x, y], &[]).sound());
        let mut seen = noted(22, 0, [x, y], &[x]);
        seen.outcomes[0][0] = ENOUGH;
        assert!(seen.missing() > 0 && !seen.sound());
    }
}
