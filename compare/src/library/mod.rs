//! Holds the functions of include/bench.h that run commands against the plain sheet: on fresh sheets, and on sheets that are kept.

pub mod arrows;
mod calls;
pub mod kept;
mod lent;
pub mod lists;
pub mod rays;

/// The numbers of a command and of an answer.
pub const COMMAND: usize = 7;
pub const ANSWER: usize = 6;

/// The functions, each with its counts as the lengths of slices.
#[derive(Clone, Copy)]
pub struct Library {
    pub words: fn() -> usize,
    pub fresh: fn(&mut [u32]) -> u32,
    pub step: fn(&mut [u32], &[u32; COMMAND], &mut [u32]) -> u32,
    pub respond: fn(&mut [u32], &[u8], &mut [u8]) -> u32,
    pub run_on: fn(&mut [u32], &[u32], &mut [u32]) -> u32,
    pub run: fn(&[u32], &mut [u32]) -> u32,
}

/// How many differences are printed.
const PRINTED: u64 = 20;

/// The calls so far.
#[derive(Default)]
pub struct Account {
    pub compared: u64,
    pub different: u64,
}

impl Account {
    /// Counts a call, and prints it if it is one of the first that are different.
    pub fn note(&mut self, equal: bool, tell: impl FnOnce() -> String) {
        self.compared += 1;
        if !equal {
            self.different += 1;
            if self.different <= PRINTED {
                println!("{}", tell());
            }
        }
    }
}
