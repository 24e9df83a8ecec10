//! The functions by number (docs/FUNCTIONS.md): what each takes and gives, and its answer by the Rust.

use crate::decimal;
use crate::f32::math;
use crate::roots::is_exact;
use crate::sheet::directions::{direction_unchecked, scaled};
use crate::{BVec3, Vec3, Vec4};
use std::error::Error;

/// The bits that stand for any NaN in an answer.
pub const NAN: u32 = 2143289344;

/// Numbers of functions are below this.
const NUMBERS: usize = 124;

/// The most numbers that a function's arguments and its results have.
pub const MOST_ARGUMENTS: usize = 9;
pub const MOST_RESULTS: usize = 6;

/// The form of an argument.
#[derive(Clone, Copy, PartialEq)]
pub enum Form {
    Float,
    Bool,
    Index,
    Mask,
    Vector,
    Four,
}

impl Form {
    /// How many numbers of a call line it has.
    pub const fn count(self) -> usize {
        match self {
            Form::Float | Form::Bool | Form::Index => 1,
            Form::Mask | Form::Vector => 3,
            Form::Four => 4,
        }
    }
}

/// The results: the first `gives` of them count.
pub type Results = [u32; MOST_RESULTS];

pub struct Function {
    pub number: u32,
    pub name: &'static str,
    pub takes: &'static [Form],
    /// How many numbers its arguments and its results have.
    pub arguments: usize,
    pub gives: usize,
    /// The results for `arguments` numbers, where a bool is 0 or 1 and an index at most 2.
    pub call: fn(&[u32]) -> Results,
}

/// The function of a number.
pub fn find(number: u32) -> Option<&'static Function> {
    static PLACES: [u8; NUMBERS] = places();
    match PLACES.get(number as usize) {
        Some(&place) => FUNCTIONS.get(place as usize),
        None => None,
    }
}

/// The functions of a list of numbers and ranges, as in 1-15,43.
pub fn functions_of(list: &str) -> Result<Vec<&'static Function>, Box<dyn Error>> {
    let mut chosen = Vec::new();
    for part in list.split(',') {
        let (low, high) = part.split_once('-').unwrap_or((part, part));
        let (low, high): (u32, u32) = (low.parse()?, high.parse()?);
        chosen.extend(FUNCTIONS.iter().filter(|function| (low..=high).contains(&function.number)));
    }
    if chosen.is_empty() {
        return Err(format!("no function has a number of {list}").into());
    }
    Ok(chosen)
}

/// The function that a line calls, whatever its arguments are.
pub fn called_by(line: &[u8]) -> Option<&'static Function> {
    let first = line.split(|byte| b" \n".contains(byte)).next()?;
    find(decimal::read(first)?)
}

/// For each number its place in the table, or one outside of it.
const fn places() -> [u8; NUMBERS] {
    let mut places = [u8::MAX; NUMBERS];
    let mut i = 0;
    while i < FUNCTIONS.len() {
        places[FUNCTIONS[i].number as usize] = i as u8;
        i += 1;
    }
    places
}

/// An argument in the numbers of a call line.
trait Argument {
    const FORM: Form;
    fn of(numbers: &[u32]) -> Self;
}

/// The next argument of those that are left.
fn next<A: Argument>(rest: &mut &[u32]) -> A {
    let (own, others) = rest.split_at(A::FORM.count());
    *rest = others;
    A::of(own)
}

impl Argument for f32 {
    const FORM: Form = Form::Float;
    fn of(n: &[u32]) -> Self {
        f32::from_bits(n[0])
    }
}

impl Argument for bool {
    const FORM: Form = Form::Bool;
    fn of(n: &[u32]) -> Self {
        n[0] != 0
    }
}

impl Argument for usize {
    const FORM: Form = Form::Index;
    fn of(n: &[u32]) -> Self {
        n[0] as usize
    }
}

impl Argument for BVec3 {
    const FORM: Form = Form::Mask;
    fn of(n: &[u32]) -> Self {
        BVec3::new(n[0] != 0, n[1] != 0, n[2] != 0)
    }
}

impl Argument for Vec3 {
    const FORM: Form = Form::Vector;
    fn of(n: &[u32]) -> Self {
        Vec3::new(f32::of(n), f32::of(&n[1..]), f32::of(&n[2..]))
    }
}

impl Argument for Vec4 {
    const FORM: Form = Form::Four;
    fn of(n: &[u32]) -> Self {
        Vec4::new(f32::of(n), f32::of(&n[1..]), f32::of(&n[2..]), f32::of(&n[3..]))
    }
}

/// A result as the numbers of an answer line.
trait Outcome {
    const COUNT: usize;
    fn put(self, numbers: &mut [u32]);
}

impl Outcome for f32 {
    const COUNT: usize = 1;
    fn put(self, n: &mut [u32]) {
        n[0] = if self.is_nan() { NAN } else { self.to_bits() };
    }
}

impl Outcome for bool {
    const COUNT: usize = 1;
    fn put(self, n: &mut [u32]) {
        n[0] = self as u32;
    }
}

impl Outcome for u32 {
    const COUNT: usize = 1;
    fn put(self, n: &mut [u32]) {
        n[0] = self;
    }
}

impl Outcome for usize {
    const COUNT: usize = 1;
    fn put(self, n: &mut [u32]) {
        n[0] = self as u32;
    }
}

impl Outcome for BVec3 {
    const COUNT: usize = 3;
    fn put(self, n: &mut [u32]) {
        (self.x, (self.y, self.z)).put(n);
    }
}

impl Outcome for Vec3 {
    const COUNT: usize = 3;
    fn put(self, n: &mut [u32]) {
        (self.x, (self.y, self.z)).put(n);
    }
}

impl Outcome for Vec4 {
    const COUNT: usize = 4;
    fn put(self, n: &mut [u32]) {
        ((self.x, self.y), (self.z, self.w)).put(n);
    }
}

impl<A: Outcome, B: Outcome> Outcome for (A, B) {
    const COUNT: usize = A::COUNT + B::COUNT;
    fn put(self, n: &mut [u32]) {
        self.0.put(n);
        self.1.put(&mut n[A::COUNT..]);
    }
}

impl Outcome for Option<Vec3> {
    const COUNT: usize = 4;
    fn put(self, n: &mut [u32]) {
        (self.is_some(), self.unwrap_or(Vec3::ZERO)).put(n);
    }
}

/// A root, and whether it is exact: the Rust has no function that tells it. The Rust's `length` and `distance` take the root of what its
/// `length_squared` and `distance_squared` give.
fn and_exactness(root: f32, x: f32) -> (f32, bool) {
    (root, is_exact(root, x))
}

macro_rules! table {
    ($($number:literal $name:literal ($($x:ident: $form:ty),*) -> $result:ty = $answer:expr;)*) => {
        pub static FUNCTIONS: &[Function] = &[$(Function {
            number: $number,
            name: $name,
            takes: &[$(<$form as Argument>::FORM),*],
            arguments: 0 $(+ <$form as Argument>::FORM.count())*,
            gives: <$result as Outcome>::COUNT,
            call: |numbers| {
                let mut _rest = numbers;
                $(let $x: $form = next(&mut _rest);)*
                let result: $result = $answer;
                let mut results = [0; MOST_RESULTS];
                result.put(&mut results);
                results
            },
        }),*];
    };
}

table! {
    1 "sqrt" (x: f32) -> f32 = math::sqrt(x);
    2 "mul_add" (x: f32, y: f32, z: f32) -> f32 = math::mul_add(x, y, z);
    3 "trunc" (x: f32) -> f32 = math::trunc(x);
    4 "floor" (x: f32) -> f32 = math::floor(x);
    5 "round" (x: f32) -> f32 = math::round(x);
    6 "abs" (x: f32) -> f32 = math::abs(x);
    7 "copysign" (x: f32, y: f32) -> f32 = math::copysign(x, y);
    8 "signum" (x: f32) -> f32 = math::signum(x);
    9 "rem" (x: f32, y: f32) -> f32 = x % y;
    10 "div_euclid" (x: f32, y: f32) -> f32 = math::div_euclid(x, y);
    11 "rem_euclid" (x: f32, y: f32) -> f32 = math::rem_euclid(x, y);
    12 "acos_approx" (x: f32) -> f32 = math::acos_approx(x);
    13 "is_finite" (x: f32) -> bool = x.is_finite();
    14 "is_nan" (x: f32) -> bool = x.is_nan();
    15 "is_sign_negative" (x: f32) -> bool = x.is_sign_negative();
    16 "sqrt_and_exactness" (x: f32) -> (f32, bool) = and_exactness(math::sqrt(x), x);

    30 "BVec3 new" (x: bool, y: bool, z: bool) -> BVec3 = BVec3::new(x, y, z);
    31 "BVec3 splat" (x: bool) -> BVec3 = BVec3::splat(x);
    32 "BVec3 test" (m: BVec3, i: usize) -> bool = m.test(i);
    33 "BVec3 bitmask" (m: BVec3) -> u32 = m.bitmask();
    34 "BVec3 and" (m: BVec3, n: BVec3) -> BVec3 = m & n;
    35 "BVec3 or" (m: BVec3, n: BVec3) -> BVec3 = m | n;
    36 "BVec3 not" (m: BVec3) -> BVec3 = !m;

    40 "new" (x: f32, y: f32, z: f32) -> Vec3 = Vec3::new(x, y, z);
    41 "splat" (x: f32) -> Vec3 = Vec3::splat(x);
    42 "select" (m: BVec3, a: Vec3, b: Vec3) -> Vec3 = Vec3::select(m, a, b);
    43 "dot" (a: Vec3, b: Vec3) -> f32 = a.dot(b);
    44 "cross" (a: Vec3, b: Vec3) -> Vec3 = a.cross(b);
    45 "min" (a: Vec3, b: Vec3) -> Vec3 = a.min(b);
    46 "max" (a: Vec3, b: Vec3) -> Vec3 = a.max(b);
    47 "clamp" (a: Vec3, min: Vec3, max: Vec3) -> Vec3 = a.clamp(min, max);
    48 "min_element" (a: Vec3) -> f32 = a.min_element();
    49 "max_element" (a: Vec3) -> f32 = a.max_element();
    50 "min_position" (a: Vec3) -> usize = a.min_position();
    51 "max_position" (a: Vec3) -> usize = a.max_position();
    52 "cmpeq" (a: Vec3, b: Vec3) -> BVec3 = a.cmpeq(b);
    53 "cmpge" (a: Vec3, b: Vec3) -> BVec3 = a.cmpge(b);
    54 "cmple" (a: Vec3, b: Vec3) -> BVec3 = a.cmple(b);
    55 "cmplt" (a: Vec3, b: Vec3) -> BVec3 = a.cmplt(b);
    56 "abs" (a: Vec3) -> Vec3 = a.abs();
    57 "signum" (a: Vec3) -> Vec3 = a.signum();
    58 "copysign" (a: Vec3, b: Vec3) -> Vec3 = a.copysign(b);
    59 "is_negative_bitmask" (a: Vec3) -> u32 = a.is_negative_bitmask();
    60 "is_finite" (a: Vec3) -> bool = a.is_finite();
    61 "is_finite_mask" (a: Vec3) -> BVec3 = a.is_finite_mask();
    62 "is_nan" (a: Vec3) -> bool = a.is_nan();
    63 "is_nan_mask" (a: Vec3) -> BVec3 = a.is_nan_mask();
    64 "length" (a: Vec3) -> f32 = a.length();
    65 "length_squared" (a: Vec3) -> f32 = a.length_squared();
    66 "length_recip" (a: Vec3) -> f32 = a.length_recip();
    67 "distance" (a: Vec3, b: Vec3) -> f32 = a.distance(b);
    68 "distance_squared" (a: Vec3, b: Vec3) -> f32 = a.distance_squared(b);
    69 "div_euclid" (a: Vec3, b: Vec3) -> Vec3 = a.div_euclid(b);
    70 "rem_euclid" (a: Vec3, b: Vec3) -> Vec3 = a.rem_euclid(b);
    71 "normalize" (a: Vec3) -> Vec3 = a.normalize();
    72 "try_normalize" (a: Vec3) -> Option<Vec3> = a.try_normalize();
    73 "normalize_or" (a: Vec3, b: Vec3) -> Vec3 = a.normalize_or(b);
    74 "normalize_or_zero" (a: Vec3) -> Vec3 = a.normalize_or_zero();
    75 "normalize_and_length" (a: Vec3) -> (Vec3, f32) = a.normalize_and_length();
    76 "is_normalized" (a: Vec3) -> bool = a.is_normalized();
    77 "project_onto" (a: Vec3, b: Vec3) -> Vec3 = a.project_onto(b);
    78 "reject_from" (a: Vec3, b: Vec3) -> Vec3 = a.reject_from(b);
    79 "project_onto_normalized" (a: Vec3, b: Vec3) -> Vec3 = a.project_onto_normalized(b);
    80 "reject_from_normalized" (a: Vec3, b: Vec3) -> Vec3 = a.reject_from_normalized(b);
    81 "round" (a: Vec3) -> Vec3 = a.round();
    82 "floor" (a: Vec3) -> Vec3 = a.floor();
    83 "trunc" (a: Vec3) -> Vec3 = a.trunc();
    84 "step" (a: Vec3, b: Vec3) -> Vec3 = a.step(b);
    85 "saturate" (a: Vec3) -> Vec3 = a.saturate();
    86 "fract" (a: Vec3) -> Vec3 = a.fract();
    87 "fract_gl" (a: Vec3) -> Vec3 = a.fract_gl();
    88 "recip" (a: Vec3) -> Vec3 = a.recip();
    89 "lerp" (a: Vec3, b: Vec3, s: f32) -> Vec3 = a.lerp(b, s);
    90 "move_towards" (a: Vec3, b: Vec3, d: f32) -> Vec3 = a.move_towards(b, d);
    91 "midpoint" (a: Vec3, b: Vec3) -> Vec3 = a.midpoint(b);
    92 "abs_diff_eq" (a: Vec3, b: Vec3, d: f32) -> bool = a.abs_diff_eq(b, d);
    93 "clamp_length" (a: Vec3, min: f32, max: f32) -> Vec3 = a.clamp_length(min, max);
    94 "clamp_length_max" (a: Vec3, max: f32) -> Vec3 = a.clamp_length_max(max);
    95 "clamp_length_min" (a: Vec3, min: f32) -> Vec3 = a.clamp_length_min(min);
    96 "mul_add" (a: Vec3, b: Vec3, c: Vec3) -> Vec3 = a.mul_add(b, c);
    97 "reflect" (a: Vec3, normal: Vec3) -> Vec3 = a.reflect(normal);
    98 "refract" (a: Vec3, normal: Vec3, eta: f32) -> Vec3 = a.refract(normal, eta);
    99 "angle_between" (a: Vec3, b: Vec3) -> f32 = a.angle_between(b);
    100 "any_orthogonal_vector" (a: Vec3) -> Vec3 = a.any_orthogonal_vector();
    101 "any_orthonormal_vector" (a: Vec3) -> Vec3 = a.any_orthonormal_vector();
    102 "any_orthonormal_pair" (a: Vec3) -> (Vec3, Vec3) = a.any_orthonormal_pair();
    103 "component" (a: Vec3, i: usize) -> f32 = a[i];
    104 "add" (a: Vec3, b: Vec3) -> Vec3 = a + b;
    105 "sub" (a: Vec3, b: Vec3) -> Vec3 = a - b;
    106 "mul" (a: Vec3, b: Vec3) -> Vec3 = a * b;
    107 "div" (a: Vec3, b: Vec3) -> Vec3 = a / b;
    108 "add a number" (a: Vec3, s: f32) -> Vec3 = a + s;
    109 "sub a number" (a: Vec3, s: f32) -> Vec3 = a - s;
    110 "mul by a number" (a: Vec3, s: f32) -> Vec3 = a * s;
    111 "div by a number" (a: Vec3, s: f32) -> Vec3 = a / s;
    112 "neg" (a: Vec3) -> Vec3 = -a;
    113 "a number mul" (s: f32, a: Vec3) -> Vec3 = s * a;
    114 "from_homogeneous" (h: Vec4) -> Vec3 = Vec3::from_homogeneous(h);
    115 "to_homogeneous" (a: Vec3) -> Vec4 = a.to_homogeneous();
    116 "extend" (a: Vec3, w: f32) -> Vec4 = a.extend(w);
    117 "ZERO" () -> Vec3 = Vec3::ZERO;
    118 "ONE" () -> Vec3 = Vec3::ONE;
    119 "X" () -> Vec3 = Vec3::X;
    120 "length_and_exactness" (a: Vec3) -> (f32, bool) = and_exactness(a.length(), a.length_squared());
    121 "distance_and_exactness" (a: Vec3, b: Vec3) -> (f32, bool) = and_exactness(a.distance(b), a.distance_squared(b));
    122 "scaled" (a: Vec3) -> Vec3 = scaled(a);
    123 "direction_unchecked" (a: Vec3) -> Vec3 = direction_unchecked(a);
}
