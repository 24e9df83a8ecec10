//! Pairs of vectors by a seed: each is as document 02 (b) has it, and each sort of pair that is listed here has its share.

use compare::calls::called_by;
use compare::check::lines_of;
use compare::pairs::{pair, pieces};
use compare::values::Draw;
use std::collections::HashSet;

type Sizes = [f32; 3];

/// The sizes of the components in `count` pairs of a seed.
fn pairs(seed: u64, count: usize) -> impl Iterator<Item = [Sizes; 2]> {
    let mut draw = Draw::new(seed);
    (0..count).map(move |_| pair(&mut draw).map(|vector| vector.map(|bits| f32::from_bits(bits).abs())))
}

/// By how many steps the second's components are above the first's, the fewest first.
fn steps(first: Sizes, second: Sizes) -> [u32; 3] {
    let mut steps = [0, 1, 2].map(|i| second[i].to_bits() - first[i].to_bits());
    steps.sort();
    steps
}

fn finite(sizes: Sizes) -> bool {
    sizes.iter().all(|x| x.is_finite())
}

/// Of a hundred pairs at least so many are of a sort.
type Share = (&'static str, usize, fn(Sizes, Sizes) -> bool);

const SHARES: [Share; 14] = [
    ("an infinity in the second alone", 5, |a, b| finite(a) && !finite(b)),
    ("an infinity in both", 5, |a, _| !finite(a)),
    ("equal sizes", 10, |a, b| a == b),
    ("the next size in one place", 5, |a, b| steps(a, b) == [0, 0, 1]),
    ("the next size in two places", 5, |a, b| steps(a, b) == [0, 1, 1]),
    ("the next size in three places", 1, |a, b| steps(a, b) == [1, 1, 1]),
    ("a larger size in one place", 10, |a, b| steps(a, b)[1] == 0 && steps(a, b)[2] > 1),
    ("squares that all vanish", 5, |a, _| a.iter().all(|x| x * x == 0.0)),
    ("a square just above one that vanishes", 1, |a, b| (0..3).any(|i| a[i] * a[i] == 0.0 && (b[i] * b[i]).to_bits() == 1)),
    ("squares that are subnormal", 4, |a, b| [a, b].as_flattened().iter().all(|x| (x * x).is_subnormal())),
    ("a square that overflows", 5, |_, b| finite(b) && !finite(b.map(|x| x * x))),
    ("a sum of squares that overflows", 3, |_, b| {
        finite(b.map(|x| x * x)) && b.iter().map(|x| x * x).sum::<f32>().is_infinite()
    }),
    ("far apart", 5, |a, b| [a, b].iter().all(|&[x, y, z]| x > 0.0 && y > 256.0 * x && z > 256.0 * x)),
    ("ordinary sizes", 10, |a, b| [a, b].as_flattened().iter().all(|x| (0.0001..10000.0).contains(x))),
];

#[test]
fn each_sort_has_its_share() {
    for (sort, share, is_of) in SHARES {
        let count = pairs(1, 20_000).filter(|&[first, second]| is_of(first, second)).count();
        assert!(count >= share * 200, "{sort}: {count}");
    }
}

#[test]
fn no_component_is_a_nan_or_smaller() {
    for seed in 0..3 {
        for [first, second] in pairs(seed, 200_000) {
            assert!((0..3).all(|i| first[i] <= second[i]), "{first:?} {second:?}");
        }
    }
}

#[test]
fn all_signs_come() {
    let mut draw = Draw::new(1);
    let signs = |_| pair(&mut draw).as_flattened().iter().fold(0, |signs, bits| signs << 1 | bits >> 31);
    assert_eq!((0..2000).map(signs).collect::<HashSet<u32>>().len(), 64);
}

#[test]
fn pairs_of_a_seed_are_the_same() {
    let all = |seed, count| pieces(seed, count).flatten().collect::<Vec<u8>>();
    let lines = all(1, 40_000);
    assert!(lines == all(1, 40_000) && lines.starts_with(&all(1, 20_000)) && lines != all(2, 40_000));
}

#[test]
fn a_pair_calls_both_functions_for_both_vectors() {
    let lines: Vec<u8> = pieces(1, 20_000).flatten().collect();
    let names: Vec<&str> = lines_of(&lines).map(|line| called_by(line).expect("there is the function").name).collect();
    assert!(names == ["length_squared", "length_squared", "length", "length"].repeat(20_000));
}
