//! Directions of the plain sheet (document 02, f): the marked cases, and vectors of every exponent held against the scaling by whole numbers.

mod scaling;

use compare::arrows::{arrow, LEAST, MOST};
use compare::calls::{find, NAN};
use compare::generate::arguments;
use compare::sheet::{Command, Sheet};
use compare::sitting::Sitting;
use compare::tally::Tally;
use compare::values::{vector, Draw};
use scaling::{largest_exponent, times_power, Vector};

const VECTORS: usize = 400_000;
const COMMANDS: usize = 500_000;

/// The direction of a point by command 2, in bits; the refusal where there is none.
fn direction_of(v: Vector) -> Result<[u32; 3], u32> {
    let mut sheet = Sheet::fresh();
    let [x, y, z] = v.map(f32::to_bits);
    assert_eq!(sheet.run(&Command::of([1, 0, 0, 0, x, y, z])).refusal, 0);
    let answer = sheet.run(&Command::of([2, 1, 0, 0, 0, 0, 0]));
    match answer.refusal {
        0 => Ok(answer.values),
        refusal => Err(refusal),
    }
}

/// Two to a power.
fn power(exponent: i32) -> f32 {
    2f64.powi(exponent) as f32
}

fn bits(v: [u32; 3]) -> Vector {
    v.map(f32::from_bits)
}

#[test]
fn marked_cases() {
    let one = 1f32.to_bits();
    for exponent in [-149, -148, -127, -126, -75, -64, -63, -1, 0, 1, 63, 64, 126, 127] {
        assert_eq!(direction_of([power(exponent), 0.0, 0.0]), Ok([one, 0, 0]), "{exponent}");
        assert_eq!(direction_of([-0.0, 0.0, -power(exponent)]), Ok([1 << 31, 0, one | 1 << 31]), "{exponent}");
    }
    assert_eq!(direction_of([power(127), -power(-149), 0.0]), Ok([one, 1 << 31, 0]));
    assert_eq!(direction_of([3e38; 3]), Ok([0x3f13_cd3a; 3]));
    assert_eq!(direction_of([power(-149); 3]), Ok([0x3f13_cd3a; 3]));
    assert_eq!(direction_of(bits([0x9fbf_a075, 0x20ac_8d8f, 0x1f95_235a])), Ok([0xbe86_17bb, 0x3f71_7dc0, 0x3e50_b8be]));
    assert_eq!(direction_of(bits([0x1010_e7e7, 0x560c_1e9c, 0x4628_cb8a])).map(|[x, ..]| x), Ok(0x0000_0212));
}

#[test]
fn three_zeros_have_none() {
    for signs in 0..8u32 {
        let zeros = [0, 1, 2].map(|place| f32::from_bits(signs >> place << 31));
        assert_eq!(direction_of(zeros), Err(7), "{zeros:?}");
    }
}

#[test]
fn whole_numbers_give_the_same() {
    let mut draw = Draw::new(1);
    let mut refused = 0;
    for n in 0..VECTORS {
        let v = bits(if n % 4 == 0 { vector(&mut draw) } else { arrow(&mut draw) });
        if v.iter().all(|x| x.is_finite()) {
            let right = scaling::direction_of(v).map(|v| v.map(f32::to_bits));
            assert_eq!(direction_of(v), right.ok_or(7), "{:08x?}", v.map(f32::to_bits));
            assert_eq!(right.is_none(), v == [0.0; 3]);
            refused += usize::from(right.is_none());
        }
    }
    assert!(refused >= VECTORS / 100, "{refused} refused");
}

/// Where no product is subnormal, the product in f64 is exact and an f32.
#[test]
fn whole_numbers_scale_as_f64_does() {
    let mut draw = Draw::new(2);
    for _ in 0..VECTORS {
        let v = bits(arrow(&mut draw));
        let Some(exponent) = largest_exponent(v) else { continue };
        for x in v {
            let product = f64::from(x) * 2f64.powi(-exponent);
            let by_whole = f64::from(times_power(x, -exponent, scaling::nearest_even));
            assert!(product.abs() < 2f64.powi(-126) || product == by_whole, "{x:e} {exponent}");
            assert!((product - by_whole).abs() <= 2f64.powi(-150), "{x:e} {exponent}");
        }
    }
}

/// Function 123 is the direction of a vector that has one; of the others it is what the product is, with a NaN in it.
#[test]
fn the_unchecked_direction() {
    let unchecked = find(123).expect("it is one of the functions");
    let call = |v: Vector| {
        let [x, y, z, ..] = (unchecked.call)(&v.map(f32::to_bits));
        [x, y, z]
    };
    let mut draw = Draw::new(4);
    let mut without = 0;
    for _ in 0..VECTORS {
        let v = arguments(&mut draw, unchecked);
        let v = bits([v[0], v[1], v[2]]);
        let finite = v.iter().all(|x| x.is_finite());
        match if finite { direction_of(v) } else { Err(7) } {
            Ok(right) => assert_eq!(call(v), right, "{v:?}"),
            Err(_) => {
                without += 1;
                assert!(call(v).contains(&NAN), "{v:?}");
            }
        }
    }
    assert!((VECTORS / 50..VECTORS / 2).contains(&without), "{without} without a direction");
    assert_eq!(call([0.0, -0.0, 0.0]), [NAN; 3]);
    assert_eq!(call([f32::INFINITY, -2.0, 0.0]), [NAN, 1 << 31, 0]);
    assert_eq!(call([f32::NAN, 1.0, 0.0]), [NAN; 3]);
    assert_eq!(call([f32::NAN, f32::NEG_INFINITY, 0.0]), [NAN; 3]);
}

#[test]
fn arrows_of_each_exponent_are_drawn() {
    let mut draw = Draw::new(3);
    let mut counts = [0; (MOST - LEAST + 1) as usize];
    for _ in 0..VECTORS {
        if let Some(exponent) = largest_exponent(bits(arrow(&mut draw))) {
            counts[(exponent - LEAST) as usize] += 1;
        }
    }
    assert!(counts.iter().all(|&count| count >= 400), "{counts:?}");
}

#[test]
fn a_sitting_has_each_exponent_and_each_outcome() {
    let mut tally = Tally::default();
    for command in Sitting::new(1, 0).long_list(COMMANDS) {
        tally.answer(Some(command));
    }
    let scales = &tally.scales;
    assert!(!scales.exponents.contains(&0) && scales.counts.iter().all(|&count| count >= 50), "{scales}");
}
