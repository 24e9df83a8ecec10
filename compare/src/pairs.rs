//! Pairs of vectors by a seed: no component is a NaN, and each component of the second is at least as large in size as the first's.

use crate::decimal;
use crate::values::{around, either_sign, far_apart, short, vector, with_exponent, Draw, Vector};

pub type Pair = [Vector; 2];

/// How many pairs a piece has, and how many call lines a pair.
const PIECE: u64 = 16_384;
pub const LINES: usize = 4;

/// The numbers of the functions that are called.
const LENGTH_SQUARED: u32 = 65;
const LENGTH: u32 = 64;

/// The bits of a size, a number without its sign: of two sizes the larger one has the larger bits.
const SIZE: u32 = 0x7fff_ffff;
const INFINITY: u32 = 0x7f80_0000;

/// A kind of vectors. Their signs are dropped, and a NaN counts as an infinity.
type Kind = fn(&mut Draw) -> Vector;

const KINDS: [Kind; 11] = [
    |d| [(); 3].map(|()| d.word()),
    |d| [(); 3].map(|()| vanishing(d)),
    // squares that are subnormal, or just not
    |d| [(); 3].map(|()| with_exponent(d, 52, 64)),
    |d| [(); 3].map(|()| overflowing(d)),
    |d| [(); 3].map(|()| overflowing_sum(d)),
    |d| [(); 3].map(|()| with_exponent(d, 117, 137)),
    |d| [(); 3].map(|()| short(d)),
    // each component of a kind of its own
    |d| [0, 1, 2].map(|i| d.one_of(&KINDS)(d)[i]),
    with_infinities,
    apart,
    vector,
];

/// The pieces of the call lines of `count` pairs.
pub fn pieces(seed: u64, count: u64) -> impl Iterator<Item = Vec<u8>> {
    let mut draw = Draw::new(seed);
    (0..count.div_ceil(PIECE)).map(move |piece| {
        let mut lines = Vec::new();
        (0..PIECE.min(count - piece * PIECE)).for_each(|_| write(&pair(&mut draw), &mut lines));
        lines
    })
}

/// Appends the call lines of a pair: the squared length of the first and of the second vector, then the length of each.
pub fn write(pair: &Pair, out: &mut Vec<u8>) {
    for function in [LENGTH_SQUARED, LENGTH] {
        for vector in pair {
            decimal::write(out, function);
            for &component in vector {
                out.push(b' ');
                decimal::write(out, component);
            }
            out.push(b'\n');
        }
    }
}

/// A pair of vectors of some kind, with any signs.
pub fn pair(d: &mut Draw) -> Pair {
    let kind = d.one_of(&KINDS);
    let one = sizes(kind(d));
    let other = beside(d, one, kind);
    let first = [0, 1, 2].map(|i| either_sign(d, one[i].min(other[i])));
    let second = [0, 1, 2].map(|i| either_sign(d, one[i].max(other[i])));
    [first, second]
}

/// The sizes of a vector's components, that of a NaN an infinity.
fn sizes(vector: Vector) -> Vector {
    vector.map(|component| (component & SIZE).min(INFINITY))
}

/// Sizes to go with those of a vector of some kind.
fn beside(d: &mut Draw, one: Vector, kind: Kind) -> Vector {
    match d.below(5) {
        0 => one,
        // the next larger size, in some places
        1 => {
            let places = d.between(1, 7);
            [0, 1, 2].map(|i| up(one[i], (places >> i & 1) as u32))
        }
        // up to 2^25 steps larger, among normal numbers a factor of 16
        2 => one.map(|size| up(size, d.word() >> d.between(7, 31))),
        // another size in one place alone, or an infinity
        3 => {
            let place = d.below(3) as usize;
            let other = if d.once_in(4) { INFINITY } else { sizes(kind(d))[place] };
            [0, 1, 2].map(|i| if i == place { other } else { one[i] })
        }
        _ => sizes(kind(d)),
    }
}

/// The size so many steps above another one, or an infinity if there are not so many.
fn up(size: u32, steps: u32) -> u32 {
    (size + steps).min(INFINITY)
}

/// A component whose square vanishes, or nearly: squares up to 2^-150 are rounded to 0, those up to 3 times 2^-150 to 2^-149.
fn vanishing(d: &mut Draw) -> u32 {
    match d.below(4) {
        0 => 0,
        1 => with_exponent(d, 0, 0),
        2 => with_exponent(d, 0, 52),
        _ => {
            let square = d.one_of(&[1f64, 2.0, 3.0]);
            around(d, square.sqrt() * 2f64.powi(-75))
        }
    }
}

/// A component whose square overflows, or nearly.
fn overflowing(d: &mut Draw) -> u32 {
    match d.below(3) {
        0 => with_exponent(d, 190, 254),
        1 => INFINITY - 1 - d.below(4),
        _ => around(d, 2f64.powi(64)),
    }
}

/// A component whose square does not overflow, but its sum with one or two others does, or nearly.
fn overflowing_sum(d: &mut Draw) -> u32 {
    match d.below(3) {
        0 => with_exponent(d, 187, 190),
        1 => around(d, 2f64.powi(64) / 2f64.sqrt()),
        _ => around(d, 2f64.powi(64) / 3f64.sqrt()),
    }
}

/// One to three infinities among components of any kind.
fn with_infinities(d: &mut Draw) -> Vector {
    let mut components = d.one_of(&KINDS)(d);
    for _ in 0..d.between(1, 3) {
        components[d.below(3) as usize] = INFINITY;
    }
    components
}

/// Components far apart in size; in half of the vectors the smaller squares are about the last bit of the largest one.
fn apart(d: &mut Draw) -> Vector {
    let mut components = if d.once_in(2) {
        let high = d.between(14, 254);
        [0, d.between(11, 13), d.between(11, 13)].map(|gap| with_exponent(d, high - gap, high - gap))
    } else {
        let ([high, low], [_, third]) = (far_apart(d), far_apart(d));
        [high, low, third]
    };
    components.rotate_left(d.below(3) as usize);
    components
}
