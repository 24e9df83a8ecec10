//! Exact roots by a seed: each sort of number, vector and pair of vectors that is listed here has its share, and the calls and the
//! lengths and distances of a sitting show each mistake in telling whether a root is exact.

use compare::calls::find;
use compare::generate::arguments;
use compare::roots::is_exact;
use compare::sheet::{Sheet, EXACT_ROOT};
use compare::sitting::Sitting;
use compare::squares::{for_distance, for_length, for_root};
use compare::values::Draw;

const COUNT: usize = 20_000;
const ZERO: [f32; 3] = [0.0; 3];

/// A root, its argument, and the ends of the way whose length it is.
struct Root {
    ends: [[f32; 3]; 2],
    x: f32,
    root: f32,
}

impl Root {
    /// The root of a number, the length of a vector or the distance of two, by their bits.
    fn of(bits: &[u32]) -> Root {
        match bits.iter().map(|&bits| f32::from_bits(bits)).collect::<Vec<_>>()[..] {
            [x] => Root { ends: [[x.sqrt(), 0.0, 0.0], ZERO], x, root: x.sqrt() },
            [x, y, z] => Root::between([[x, y, z], ZERO]),
            [x, y, z, u, v, w] => Root::between([[x, y, z], [u, v, w]]),
            _ => unreachable!("these are no vectors"),
        }
    }

    fn between(ends: [[f32; 3]; 2]) -> Root {
        let mut root = Root { ends, x: 0.0, root: 0.0 };
        let [x, y, z] = root.way();
        root.x = x * x + y * y + z * z;
        root.root = root.x.sqrt();
        root
    }

    fn way(&self) -> [f32; 3] {
        let [a, b] = self.ends;
        [a[0] - b[0], a[1] - b[1], a[2] - b[2]]
    }

    fn is_exact(&self) -> bool {
        is_exact(self.root, self.x)
    }

    fn just_not(&self) -> bool {
        !self.is_exact() && self.root.is_finite()
    }

    /// The exact sum of the squares, where an f64 holds it.
    fn exact_sum(&self) -> Option<f64> {
        let [a, b, c] = self.way().map(|part| f64::from(part) * f64::from(part));
        let holds = |sum: f64, a: f64, b: f64| sum - a == b && sum - b == a;
        (holds(a + b, a, b) && holds(a + b + c, a + b, c)).then_some(a + b + c)
    }

    /// Whether the squares or their sum were rounded.
    fn is_rounded(&self) -> bool {
        self.exact_sum() != Some(f64::from(self.x))
    }

    /// Whether the exact sum of the squares is the square of an f32.
    fn is_whole(&self) -> bool {
        self.exact_sum().is_some_and(|sum| f64::from(sum.sqrt() as f32).powi(2) == sum)
    }

    /// Whether the root, squared and rounded, is its argument.
    fn comes_back(&self) -> bool {
        self.root * self.root == self.x
    }
}

/// Of a hundred at least so many are of a sort.
type Share = (&'static str, usize, fn(&Root) -> bool);

fn have_shares(draw: impl Fn(&mut Draw) -> Root, shares: &[Share]) {
    let mut d = Draw::new(1);
    let roots: Vec<Root> = (0..COUNT).map(|_| draw(&mut d)).collect();
    for (sort, share, is_of) in shares {
        let count = roots.iter().filter(|root| is_of(root)).count();
        assert!(count * 100 >= share * COUNT, "{sort}: {count} of {COUNT}");
    }
}

#[test]
fn arguments_of_roots_have_their_shares() {
    have_shares(
        |d| Root::of(&[for_root(d)]),
        &[
            ("exact, not zero", 20, |r| r.is_exact() && r.x != 0.0),
            ("not exact", 20, |r| r.just_not()),
            ("not exact, but comes back", 5, |r| r.just_not() && r.comes_back()),
            ("exact, subnormal", 1, |r| r.is_exact() && r.x.is_subnormal()),
            ("not exact, subnormal", 1, |r| r.just_not() && r.x.is_subnormal()),
            ("zero", 1, |r| r.x.to_bits() == 0),
            ("infinite", 1, |r| r.x == f32::INFINITY),
            ("below zero", 3, |r| r.x < 0.0),
        ],
    );
}

#[test]
fn vectors_have_their_shares() {
    have_shares(
        |d| Root::of(&for_length(d)),
        &[
            ("exact, not zero", 20, |r| r.is_exact() && r.x != 0.0),
            ("exact, of three parts", 5, |r| r.is_exact() && r.x != 0.0 && r.way().iter().all(|&part| part != 0.0)),
            ("exact, of a rounded sum", 5, |r| r.is_exact() && r.x != 0.0 && r.is_rounded()),
            ("exact, of a subnormal sum", 1, |r| r.is_exact() && r.x.is_subnormal()),
            ("not exact", 20, |r| r.just_not()),
            ("not exact, but comes back", 5, |r| r.just_not() && r.comes_back()),
            ("not exact, but whole before rounding", 2, |r| r.just_not() && r.is_whole()),
            ("not exact, of a subnormal sum", 1, |r| r.just_not() && r.x.is_subnormal()),
            ("not zero, the root is", 5, |r| r.way() != ZERO && r.root == 0.0),
            ("a subnormal part", 1, |r| r.way().iter().any(|part| part.is_subnormal())),
            ("infinite", 3, |r| r.x == f32::INFINITY),
            ("zeros", 3, |r| r.way() == ZERO),
        ],
    );
}

#[test]
fn pairs_of_vectors_have_their_shares() {
    have_shares(
        |d| Root::of(&for_distance(d).concat()),
        &[
            ("exact, not zero", 20, |r| r.is_exact() && r.x != 0.0),
            ("exact, neither end zero", 10, |r| r.is_exact() && r.x != 0.0 && !r.ends.contains(&ZERO)),
            ("exact, of a rounded sum", 3, |r| r.is_exact() && r.x != 0.0 && r.is_rounded()),
            ("not exact", 20, |r| r.just_not()),
            ("not exact, but comes back", 5, |r| r.just_not() && r.comes_back()),
            ("equal ends", 3, |r| r.ends[0] == r.ends[1]),
            ("infinite", 3, |r| r.x == f32::INFINITY),
        ],
    );
}

/// Mistakes in telling whether a finite root is exact.
type Mistake = (&'static str, fn(&Root) -> bool);

const MISTAKES: [Mistake; 6] = [
    ("the square rounded", Root::comes_back),
    ("what a fused product leaves", |r| r.root.mul_add(r.root, -r.x) == 0.0),
    ("a root of few bits", |r| r.root.to_bits() & 0xfff == 0),
    ("a whole root", |r| r.root.fract() == 0.0),
    ("no zero", |r| r.is_exact() && r.x != 0.0),
    ("no subnormal argument", |r| r.is_exact() && !r.x.is_subnormal()),
];

/// Mistakes in what the root is taken of.
const MISTAKEN_SUMS: [Mistake; 2] =
    [("the exact sum", Root::is_whole), ("no rounded sum", |r| r.is_exact() && !r.is_rounded())];

fn show_each(roots: &[Root], mistakes: &[Mistake]) {
    for (mistake, told) in mistakes {
        let shown = roots.iter().filter(|root| root.root.is_finite() && told(root) != root.is_exact()).count();
        assert!(shown > 0, "{mistake} is not found");
    }
}

#[test]
fn calls_show_each_mistake() {
    for (number, more) in [(16, &[][..]), (120, &MISTAKEN_SUMS), (121, &MISTAKEN_SUMS)] {
        let (function, mut d) = (find(number).expect("there is the function"), Draw::new(1));
        let roots: Vec<Root> = (0..2000).map(|_| Root::of(&arguments(&mut d, function))).collect();
        show_each(&roots, &MISTAKES);
        show_each(&roots, more);
    }
}

#[test]
fn lengths_and_distances_of_a_sitting_show_each_mistake() {
    let mut sheet = Sheet::fresh();
    let (mut lengths, mut distances) = (Vec::new(), Vec::new());
    for command in Sitting::new(1, 0).long_list(100_000) {
        let answer = sheet.run(&command);
        let row = |row: u32| sheet.rows()[row as usize].numbers();
        let root = match command.number {
            26 if answer.refusal == 0 => Root::between([row(command.a), ZERO]),
            27 if answer.refusal == 0 => Root::between([row(command.a), row(command.b)]),
            _ => continue,
        };
        assert_eq!((answer.kind == EXACT_ROOT, answer.values[0]), (root.is_exact(), root.root.to_bits()), "{command:?}");
        if command.number == 26 { &mut lengths } else { &mut distances }.push(root);
    }
    for roots in [lengths, distances] {
        let exact = roots.iter().filter(|root| root.is_exact() && root.x != 0.0).count();
        let just_not = roots.iter().filter(|root| root.just_not()).count();
        assert!(exact >= 200 && just_not >= 200, "{exact} exact and not zero, {just_not} not exact");
        show_each(&roots, &MISTAKES);
        show_each(&roots, &MISTAKEN_SUMS);
    }
}
