//! Exact squared lengths and dot products of directions, without rounding.
//!
//! A finite f32 is m times 2^e times 2^-149 with m below 2^24; below 2 in size e is at most 126. A product of two is m·m' times
//! 2^(e + e') times 2^-298, so a sum of three fits a whole number of 320 bits in units of 2^-298.

use std::cmp::Ordering;

const LIMBS: usize = 5;

/// The exponents of 1 and of 2^-24 in units of 2^-298.
const ONE: u32 = 298;
const STEP: u32 = 274;

/// A whole number in two's complement, the lowest 64 bits first.
#[derive(Clone, Copy, Debug, PartialEq, Eq)]
struct Whole([u64; LIMBS]);

impl Whole {
    const ZERO: Whole = Whole([0; LIMBS]);

    /// Adds n times 2^shift, or takes it off.
    fn add(&mut self, negative: bool, n: u64, shift: u32) {
        let wide = u128::from(n) << (shift % 64);
        let start = (shift / 64) as usize;
        let mut part = [0; LIMBS];
        part[start] = wide as u64;
        if start + 1 < LIMBS {
            part[start + 1] = (wide >> 64) as u64;
        } else {
            assert!(wide >> 64 == 0, "the number fits");
        }
        let mut carry = false;
        for (limb, add) in self.0.iter_mut().zip(part) {
            let (sum, first) = if negative { limb.overflowing_sub(add) } else { limb.overflowing_add(add) };
            let (sum, second) = if negative { sum.overflowing_sub(carry.into()) } else { sum.overflowing_add(carry.into()) };
            (*limb, carry) = (sum, first | second);
        }
    }

    fn add_product(&mut self, x: f32, y: f32) {
        assert!(x.abs() < 2.0 && y.abs() < 2.0, "components of directions");
        let ((m, e), (n, f)) = (parts(x), parts(y));
        self.add(x.is_sign_negative() != y.is_sign_negative(), m * n, e + f);
    }

    fn is_negative(&self) -> bool {
        self.0[LIMBS - 1] >> 63 == 1
    }

    fn size(mut self) -> Size {
        if self.is_negative() {
            let mut size = Whole::ZERO;
            let mut borrow = false;
            for (limb, from) in size.0.iter_mut().zip(self.0) {
                let (difference, first) = 0u64.overflowing_sub(from);
                let (difference, second) = difference.overflowing_sub(borrow.into());
                (*limb, borrow) = (difference, first | second);
            }
            self = size;
        }
        Size(self.0)
    }
}

/// m and e of a finite number.
pub fn parts(x: f32) -> (u64, u32) {
    let (exponent, digits) = ((x.to_bits() >> 23) & 0xff, u64::from(x.to_bits() & 0x7f_ffff));
    if exponent == 0 {
        (digits, 0)
    } else {
        (digits | 0x80_0000, exponent - 1)
    }
}

/// The size of a whole number, in units of 2^-298.
#[derive(Clone, Copy, Debug, Default, PartialEq, Eq)]
pub struct Size([u64; LIMBS]);

impl Size {
    /// Two to the power of minus `n`.
    pub fn power(n: u32) -> Size {
        let mut power = Whole::ZERO;
        power.add(false, 1, ONE - n);
        Size(power.0)
    }

    /// About how many times 2^-24 it is.
    pub fn steps(&self) -> f64 {
        let whole = self.0.iter().rev().fold(0.0, |sum, &limb| sum * 2f64.powi(64) + limb as f64);
        whole / 2f64.powi(STEP as i32)
    }
}

impl Ord for Size {
    fn cmp(&self, other: &Size) -> Ordering {
        self.0.iter().rev().cmp(other.0.iter().rev())
    }
}

impl PartialOrd for Size {
    fn partial_cmp(&self, other: &Size) -> Option<Ordering> {
        Some(self.cmp(other))
    }
}

/// How far the exact squared length of a vector is from 1.
pub fn off_one(v: [f32; 3]) -> Size {
    above_one(v).size()
}

/// Whether the exact squared length of a vector is below 1.
pub fn is_short(v: [f32; 3]) -> bool {
    above_one(v).is_negative()
}

/// The exact squared length of a vector, less 1.
fn above_one(v: [f32; 3]) -> Whole {
    let mut sum = Whole::ZERO;
    v.iter().for_each(|&x| sum.add_product(x, x));
    sum.add(true, 1, ONE);
    sum
}

/// The size of the exact dot product.
pub fn dot(v: [f32; 3], w: [f32; 3]) -> Size {
    let mut sum = Whole::ZERO;
    v.iter().zip(w).for_each(|(&x, y)| sum.add_product(x, y));
    sum.size()
}

#[cfg(test)]
mod tests {
    use super::*;

    #[test]
    fn sizes_are_exact() {
        let least = f32::from_bits(1);
        let mut unit = Size::default();
        assert_eq!(off_one([0.0, -1.0, 0.0]), unit);
        unit.0[0] = 1;
        assert_eq!(off_one([1.0, least, -0.0]), unit);
        assert_eq!(dot([1.0, least, 0.5], [0.25, -least, -0.5]), unit);
        assert_eq!(dot([least, 1.0, 0.0], [1.0, 0.0, 1.0]).steps(), 2f64.powi(24 - 149));
    }

    #[test]
    fn sizes_compare_by_their_highest_digits() {
        assert_eq!(off_one([0.5, 0.0, 0.0]).steps(), 0.75 * 2f64.powi(24));
        assert_eq!(off_one([1.5, 0.0, 0.0]).steps(), 1.25 * 2f64.powi(24));
        assert_eq!(Size::power(18).steps(), 64.0);
        assert!(Size::power(18) < Size::power(16) && Size::power(16) < off_one([0.5, 0.0, 0.0]));
        assert!(off_one([1.0, f32::from_bits(1), 0.0]) > Size::default());
    }

    #[test]
    fn short_vectors_are_below_one() {
        let least = f32::from_bits(1);
        assert!(is_short([0.5, 0.0, -0.5]) && is_short([1f32.next_down(), least, 0.0]));
        assert!(!is_short([0.0, 0.0, -1.0]) && !is_short([-1.0, least, 0.0]));
    }
}
