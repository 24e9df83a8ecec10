//! Arrows by a seed on a sheet that is kept: each is written by command 1 and made a direction of by command 2, through `bench_step`, and held
//! against the plain sheet.

use super::{Account, Library, ANSWER};
use crate::arrows::arrow;
use crate::scales::Scales;
use crate::sheet::{Command, Sheet, ROWS};
use crate::values::Draw;

/// The words of a row.
const ROW: usize = 5;

/// Holds the answers to `count` arrows and their directions, and the rows that they write, against the plain sheet's. Gives how the arrows
/// were scaled.
pub fn compare(library: &Library, account: &mut Account, seed: u64, count: u64) -> Scales {
    let (mut draw, mut scales) = (Draw::new(seed), Scales::default());
    let mut sheets = Sheets { library, words: vec![0; (library.words)()], plain: Sheet::fresh() };
    (library.fresh)(&mut sheets.words);
    for _ in 0..count {
        let [t, towards] = [(); 2].map(|()| draw.below(ROWS));
        let v = arrow(&mut draw);
        let [x, y, z] = v;
        let written = sheets.step([1, t, 0, 0, x, y, z]);
        let taken = sheets.step([2, towards, t, 0, 0, 0, 0]);
        if taken.right[0] == 0 {
            scales.note(v.map(f32::from_bits));
        }
        account.note(written.is_equal() && taken.is_equal(), || {
            let Step { right, given } = if written.is_equal() { taken } else { written };
            format!("the arrow {v:08x?}: result, answer, row\nright   {right:08x?}\nlibrary {given:08x?}")
        });
    }
    scales
}

/// The library's sheet and the plain one.
struct Sheets<'a> {
    library: &'a Library,
    words: Vec<u32>,
    plain: Sheet,
}

/// What one command has to give and what the library gives: the result, the answer, and the words of row t afterwards.
struct Step {
    right: [u32; 1 + ANSWER + ROW],
    given: [u32; 1 + ANSWER + ROW],
}

impl Step {
    fn is_equal(&self) -> bool {
        self.right == self.given
    }
}

impl Sheets<'_> {
    /// Runs a command on both.
    fn step(&mut self, numbers: [u32; 7]) -> Step {
        let t = numbers[1] as usize;
        let right = self.plain.run(&Command::of(numbers));
        let mut answer = [0; ANSWER];
        let result = (self.library.step)(&mut self.words, &numbers, &mut answer);
        let row = self.words[t * ROW..][..ROW].try_into().expect("a row has so many words");
        Step { right: joined(right.refusal, right.numbers(), self.plain.rows()[t].words()), given: joined(result, answer, row) }
    }
}

fn joined(result: u32, answer: [u32; ANSWER], row: [u32; ROW]) -> [u32; 1 + ANSWER + ROW] {
    let mut all = [result; 1 + ANSWER + ROW];
    all[1..=ANSWER].copy_from_slice(&answer);
    all[1 + ANSWER..].copy_from_slice(&row);
    all
}
