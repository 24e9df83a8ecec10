//! How the vectors that command 2 makes directions of are scaled (document 02, f): by which powers of two, and what becomes of their components.

use crate::arrows::{LEAST, MOST};
use crate::exact::parts;
use crate::table::named;
use std::fmt;

/// How many largest exponents a vector may have.
const EXPONENTS: usize = (MOST - LEAST + 1) as usize;

/// Among so many vectors each exponent and each outcome has to be seen.
const ENOUGH: u64 = 30_000;

/// What may be seen at a vector. The power for an exponent e is 2^-e.
const OUTCOMES: [&str; 9] = [
    "scaled up",
    "by 1",
    "down and exact",
    "down and rounded",
    "with a tie",
    "with a subnormal product",
    "with a component that vanishes",
    "by a subnormal power",
    "by a power above every f32",
];

/// The vectors so far.
pub struct Scales {
    /// How often each largest exponent was seen, from -149 on.
    pub exponents: [u64; EXPONENTS],
    /// How often each outcome was seen.
    pub counts: [u64; OUTCOMES.len()],
}

impl Default for Scales {
    fn default() -> Scales {
        Scales { exponents: [0; EXPONENTS], counts: [0; OUTCOMES.len()] }
    }
}

impl Scales {
    /// Counts a finite vector that is not zero.
    pub fn note(&mut self, v: [f32; 3]) {
        let e = exponent(v);
        self.exponents[(e - LEAST) as usize] += 1;
        for (count, seen) in self.counts.iter_mut().zip(outcomes(e, v)) {
            *count += u64::from(seen);
        }
    }

    /// How many vectors there were.
    pub fn all(&self) -> u64 {
        self.exponents.iter().sum()
    }

    /// How many exponents were seen, and how often the one that was seen least.
    pub fn seen(&self) -> (usize, u64) {
        let seen = self.exponents.iter().filter(|&&count| count > 0).count();
        (seen, self.exponents.iter().copied().min().unwrap_or(0))
    }

    /// Whether each outcome was seen.
    pub fn has_each_outcome(&self) -> bool {
        !self.counts.contains(&0)
    }

    /// Whether each exponent and each outcome was seen, if the vectors were enough.
    pub fn sound(&self) -> bool {
        self.all() < ENOUGH || (self.has_each_outcome() && !self.exponents.contains(&0))
    }
}

/// The exponent of the largest component.
fn exponent(v: [f32; 3]) -> i32 {
    let largest = v.iter().fold(0.0, |largest: f32, x| largest.max(x.abs()));
    let (significand, place) = parts(largest);
    (significand.ilog2() + place) as i32 + LEAST
}

/// Which outcomes a vector with this largest exponent shows.
fn outcomes(e: i32, v: [f32; 3]) -> [bool; OUTCOMES.len()] {
    let power = 2f64.powi(-e);
    let products = v.map(|x| f64::from(x) * power);
    let any = |is_so: fn(f64, f32) -> bool| products.iter().any(|&product| is_so(product, product as f32));
    let rounded = any(|product, nearest| f64::from(nearest) != product);
    [
        e < 0,
        e == 0,
        e > 0 && !rounded,
        e > 0 && rounded,
        any(is_tie),
        any(|_, nearest| nearest.is_subnormal()),
        any(|product, nearest| product != 0.0 && nearest == 0.0),
        (power as f32).is_subnormal(),
        (power as f32).is_infinite(),
    ]
}

/// Whether a product is half way between its nearest f32 and the one on the other side.
fn is_tie(product: f64, nearest: f32) -> bool {
    let off = product - f64::from(nearest);
    off != 0.0 && {
        let other = if off > 0.0 { nearest.next_up() } else { nearest.next_down() };
        f64::from(other) - product == off
    }
}

/// How many exponents were seen, and how often each outcome.
impl fmt::Display for Scales {
    fn fmt(&self, f: &mut fmt::Formatter) -> fmt::Result {
        let (seen, least) = self.seen();
        write!(f, "{} directions by 2: {seen} of {EXPONENTS} largest exponents, ", self.all())?;
        match least {
            0 => writeln!(f, "the others none")?,
            _ => writeln!(f, "each at least {least} times")?,
        }
        named(f, &OUTCOMES, &self.counts)
    }
}

#[cfg(test)]
mod tests {
    use super::*;

    /// The outcomes of a vector, by their places.
    fn seen(v: [f32; 3]) -> Vec<usize> {
        let mut scales = Scales::default();
        scales.note(v);
        (0..OUTCOMES.len()).filter(|&place| scales.counts[place] == 1).collect()
    }

    fn power(exponent: i32) -> f32 {
        2f64.powi(exponent) as f32
    }

    #[test]
    fn outcomes_of_vectors() {
        let least = power(-149);
        assert_eq!(seen([0.75, -0.0, 0.25]), [0]);
        assert_eq!(seen([0.75, -0.0, least]), [0, 5]);
        assert_eq!(seen([power(-127), 0.0, 0.0]), [0]);
        assert_eq!(seen([power(-128), least, 0.0]), [0, 8]);
        assert_eq!(seen([0.0, -1.5, 0.0]), [1]);
        assert_eq!(seen([0.0, -1.5, least]), [1, 5]);
        assert_eq!(seen([2.0, 3.0, 0.0]), [2]);
        assert_eq!(seen([2.0, 0.0, 4.0 * least]), [2, 5]);
        assert_eq!(seen([2.0, 0.0, -least]), [3, 4, 6]);
        assert_eq!(seen([2.0, 0.0, -3.0 * least]), [3, 4, 5]);
        assert_eq!(seen([4.0, 0.0, 3.0 * least]), [3, 5]);
        assert_eq!(seen([4.0, 0.0, least]), [3, 6]);
        assert_eq!(seen([power(126), 0.0, 0.0]), [2]);
        assert_eq!(seen([power(127), 0.0, 0.0]), [2, 7]);
        assert_eq!(seen([f32::MAX, least, f32::MIN]), [3, 6, 7]);
    }

    #[test]
    fn exponents_are_counted() {
        let mut scales = Scales::default();
        (LEAST..=MOST).for_each(|e| scales.note([0.0, power(e), -power(e)]));
        assert_eq!((scales.all(), scales.seen()), (EXPONENTS as u64, (EXPONENTS, 1)));
    }

    #[test]
    fn many_vectors_without_an_exponent_or_an_outcome_are_not_sound() {
        let mut scales = Scales { exponents: [ENOUGH; EXPONENTS], counts: [1; OUTCOMES.len()] };
        assert!(scales.sound());
        scales.exponents[0] = 0;
        assert!(!scales.sound());
        scales = Scales { exponents: [ENOUGH; EXPONENTS], counts: [1; OUTCOMES.len()] };
        scales.counts[4] = 0;
        assert!(!scales.sound() && Scales::default().sound());
    }
}
