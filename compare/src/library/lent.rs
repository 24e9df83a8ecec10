//! Memory that is lent to a call, between other numbers that are not, and what all of it has to be afterwards.

use crate::values::Draw;
use std::fmt::Debug;

/// Up to so many numbers lie on each side of what is lent.
const AROUND: u32 = 32;

pub struct Lent<T> {
    memory: Vec<T>,
    right: Vec<T>,
    before: usize,
    length: usize,
}

impl<T: Copy + Debug + PartialEq> Lent<T> {
    /// Memory for so many numbers. They and those around them are drawn.
    pub fn new(draw: &mut Draw, length: usize, any: fn(&mut Draw) -> T) -> Lent<T> {
        let [before, behind] = [(); 2].map(|()| 1 + draw.below(AROUND) as usize);
        let memory: Vec<T> = (0..before + length + behind).map(|_| any(draw)).collect();
        Lent { right: memory.clone(), memory, before, length }
    }

    /// Memory that holds these numbers.
    pub fn holding(draw: &mut Draw, numbers: &[T], any: fn(&mut Draw) -> T) -> Lent<T> {
        let mut lent = Lent::new(draw, numbers.len(), any);
        lent.all().copy_from_slice(numbers);
        lent.is_to_hold(numbers);
        lent
    }

    /// All that is lent.
    pub fn all(&mut self) -> &mut [T] {
        self.first(self.length)
    }

    /// The first so many of the numbers.
    pub fn first(&mut self, length: usize) -> &mut [T] {
        &mut self.memory[self.before..self.before + length]
    }

    pub fn len(&self) -> usize {
        self.length
    }

    /// Has these be the first numbers after the call; the others are to stay as they are.
    pub fn is_to_hold(&mut self, first: &[T]) {
        self.right[self.before..][..first.len()].copy_from_slice(first);
    }

    /// Takes the first so many numbers as they are for right.
    pub fn may_hold(&mut self, first: usize) {
        let lent = self.before..self.before + first;
        self.right[lent.clone()].copy_from_slice(&self.memory[lent]);
    }

    /// The first number that is not as it has to be, with its place, which is negative before what is lent.
    pub fn wrong(&self) -> Option<String> {
        if self.memory == self.right {
            return None;
        }
        let place = (0..self.memory.len()).find(|&i| self.memory[i] != self.right[i])?;
        let from = place as isize - self.before as isize;
        Some(format!("number {from} of {}: right {:?}, library {:?}", self.length, self.right[place], self.memory[place]))
    }
}
