//! Whether a root is exact (document 02, c): squared it is its argument, by whole numbers and without rounding.

use crate::exact::parts;

/// Whether the root of x is exact: its square is x. Either zero has an exact root; infinity, NaN and anything below zero have none.
pub fn is_exact(root: f32, x: f32) -> bool {
    if x == 0.0 || root == 0.0 {
        return x == root;
    }
    if !x.is_finite() || !root.is_finite() || x < 0.0 {
        return false;
    }
    let ((m, e), (n, f)) = (odd_part(root), odd_part(x));
    m * m == n && 2 * e == f
}

/// The odd whole number m and the exponent e of a finite number that is not zero: its size is m times 2^e. A number has one such m and e,
/// and those of its square are m times m and twice e.
fn odd_part(x: f32) -> (u64, i32) {
    let (m, e) = parts(x);
    let zeros = m.trailing_zeros();
    (m >> zeros, (e + zeros) as i32 - 149)
}

#[cfg(test)]
mod tests {
    use super::*;
    use crate::squares::for_root;
    use crate::values::{exact, float, Draw};

    fn has_exact_root(x: f32) -> bool {
        is_exact(x.sqrt(), x)
    }

    /// The number itself, the one below and the one above.
    fn beside(x: f32) -> [f32; 3] {
        [x, x.next_down(), x.next_up()]
    }

    #[test]
    fn small_numbers() {
        let exact: Vec<u16> = (0..50).filter(|&n| has_exact_root(n.into())).collect();
        assert_eq!(exact, [0, 1, 4, 9, 16, 25, 36, 49]);
        assert!(has_exact_root(0.25) && !has_exact_root(0.5) && !has_exact_root(0.1));
    }

    #[test]
    fn zeros_infinities_and_nans() {
        assert!(has_exact_root(0.0) && has_exact_root(-0.0));
        for x in [f32::INFINITY, f32::NEG_INFINITY, f32::NAN, -f32::NAN, -25.0, -1.0, -f32::from_bits(1), f32::MAX, f32::MIN] {
            assert!(!has_exact_root(x), "{x}");
        }
    }

    #[test]
    fn another_number_is_no_root() {
        assert!(is_exact(5.0, 25.0) && is_exact(-5.0, 25.0));
        for root in [0.0, 1.0, 2.5, 10.0, 5f32.next_up(), f32::INFINITY, f32::NAN] {
            assert!(!is_exact(root, 25.0), "{root}");
        }
        assert!(!is_exact(5.0, 0.0) && !is_exact(f32::from_bits(1), 0.0) && !is_exact(0.0, f32::from_bits(1)));
        assert!(!is_exact(f32::INFINITY, f32::INFINITY) && !is_exact(0.0, f32::NAN));
    }

    /// The first number from one on whose root, squared and rounded, is that number, though the root is not exact.
    fn first_accepted_by_rounding(from: u32) -> u32 {
        let accepted = |&bits: &u32| {
            let x = f32::from_bits(bits);
            x.sqrt() * x.sqrt() == x && !has_exact_root(x)
        };
        (from..).find(accepted).expect("there is one")
    }

    #[test]
    fn a_rounded_square_is_not_enough() {
        assert_eq!(first_accepted_by_rounding(1), 1);
        assert_eq!(first_accepted_by_rounding(f32::MIN_POSITIVE.to_bits()), 0x0080_0002);
        assert_eq!(first_accepted_by_rounding(1f32.to_bits()), 0x3f80_0002);
    }

    #[test]
    fn the_smallest_numbers() {
        // these are multiples of 2^-149, an odd power: the root is exact for twice a square, and for no other
        let exact: Vec<u32> = (1..100).filter(|&bits| has_exact_root(f32::from_bits(bits))).collect();
        assert_eq!(exact, [2, 8, 18, 32, 50, 72, 98]);
    }

    #[test]
    fn squares_of_numbers_of_12_bits() {
        for m in 1..4096u16 {
            // from the least square that is a multiple of 2^-149 to the largest below 2^128
            for exponent in (-74..64).filter(|&exponent| f64::from(m) * 2f64.powi(exponent) < 2f64.powi(64)) {
                let root = f32::from(m) * 2f32.powi(exponent);
                let [x, below, above] = beside((exact(root.to_bits()) * exact(root.to_bits())) as f32);
                assert!(x.sqrt() == root && has_exact_root(x), "{m} times 2^{exponent}");
                assert!(!has_exact_root(below) && !has_exact_root(above), "{m} times 2^{exponent}");
            }
        }
    }

    /// A whole number has an exact root where it is the square of a whole one.
    #[test]
    fn squares_of_numbers_of_24_bits() {
        let mut draw = Draw::new(1);
        let any = (0..100_000).map(|_| draw.word() >> 8);
        let sparse = (1..4096).flat_map(|n| [n << 12, (n << 12) + 1, (n << 12) - 1]);
        let (mut fitting, mut others) = (0, 0);
        for m in any.chain(sparse).map(u64::from).filter(|m| m >> 23 == 1) {
            for x in beside((m * m) as f32) {
                let whole = x as u64;
                let is_square = whole.isqrt().pow(2) == whole;
                assert_eq!(has_exact_root(x), is_square, "{x}, beside {m} squared");
                *(if is_square { &mut fitting } else { &mut others }) += 1;
            }
        }
        assert!(fitting > 2000 && others > 100_000, "{fitting} fit, {others} do not");
    }

    /// The product of two f32 numbers is exact in an f64.
    #[test]
    fn the_product_in_twice_as_many_bits_agrees() {
        let mut draw = Draw::new(1);
        for n in 0..1_000_000 {
            let bits = if n % 2 == 0 { for_root(&mut draw) } else { float(&mut draw) };
            let (x, root) = (f32::from_bits(bits), f32::from_bits(bits).sqrt());
            let product = exact(root.to_bits()) * exact(root.to_bits());
            assert_eq!(is_exact(root, x), x.is_finite() && product == exact(bits), "{bits:08x}");
        }
    }
}
