//! What the plain sheet remembers, so that 33 can take it back: the last done commands among 0 to 24, 34 and 36, each by what it wrote
//! over.

use super::Row;
use std::collections::VecDeque;

/// How many commands are remembered.
pub const REMEMBERED: usize = 64;

/// A done command: its row t, what lay there before it, and after 24 also what lay in the row behind t.
#[derive(Clone, Copy)]
pub struct Step {
    pub t: u32,
    pub old: Row,
    pub behind: Option<Row>,
}

/// The commands that can be taken back, the latest last.
#[derive(Clone)]
pub struct History {
    steps: VecDeque<Step>,
}

impl History {
    /// Nothing remembered yet.
    pub fn new() -> History {
        History { steps: VecDeque::with_capacity(REMEMBERED) }
    }

    /// Remembers a command. If there are as many as can be remembered, the oldest is forgotten.
    #[inline]
    pub fn remember(&mut self, step: Step) {
        if self.steps.len() == REMEMBERED {
            self.steps.pop_front();
        }
        self.steps.push_back(step);
    }

    /// The latest command, which is remembered no more. None if nothing is remembered.
    pub fn take(&mut self) -> Option<Step> {
        self.steps.pop_back()
    }
}
