//! Numbers and vectors worth trying, drawn by a seed. A number is the bits of an f32.

use std::f64::consts::SQRT_2;

pub type Vector = [u32; 3];

/// The bit of an f32's sign.
pub const SIGN: u32 = 0x8000_0000;

/// A stream of random numbers (a shift register of 64 bits).
pub struct Draw {
    state: u64,
}

impl Draw {
    pub fn new(seed: u64) -> Draw {
        let mut draw = Draw { state: seed.wrapping_mul(2).wrapping_add(1) };
        for _ in 0..64 {
            draw.bits();
        }
        draw
    }

    pub fn bits(&mut self) -> u64 {
        self.state ^= self.state << 13;
        self.state ^= self.state >> 7;
        self.state ^= self.state << 17;
        self.state
    }

    pub fn word(&mut self) -> u32 {
        (self.bits() >> 32) as u32
    }

    /// A whole number from 0 to below `n`.
    pub fn below(&mut self, n: u32) -> u32 {
        ((u64::from(self.word()) * u64::from(n)) >> 32) as u32
    }

    /// A whole number from `low` to `high`.
    pub fn between(&mut self, low: i32, high: i32) -> i32 {
        low + self.below((high - low + 1) as u32) as i32
    }

    /// True once in `n` times.
    pub fn once_in(&mut self, n: u32) -> bool {
        self.below(n) == 0
    }

    pub fn one_of<T: Copy>(&mut self, list: &[T]) -> T {
        list[self.below(list.len() as u32) as usize]
    }

    /// A number from -1 to 1.
    pub fn unit(&mut self) -> f64 {
        f64::from(self.word() as i32) / 2f64.powi(31)
    }
}

/// Zeros, the ends of the subnormal and of the normal numbers, infinities, NaNs of several payloads, in both signs; ones.
const SPECIAL: [u32; 26] = [
    0x00000000, 0x80000000, 0x00000001, 0x80000001, 0x007fffff, 0x807fffff, 0x00800000, 0x80800000, 0x7f7fffff, 0xff7fffff,
    0x7f800000, 0xff800000, 0x7fc00000, 0xffc00000, 0x7f800001, 0xff800001, 0x7fbfffff, 0xffbfffff, 0x7fffffff, 0xffffffff,
    0x3f800000, 0xbf800000, 0x3f000000, 0xbf000000, 0x40000000, 0xc0000000,
];

/// Where a function does something else: the thresholds of move_towards (1e-4) and is_normalized (2e-4 on the square); where
/// acos_approx clamps (1), its polynomial changes its sign (3.380287) and overflows (829199.75); sizes whose squares overflow
/// or vanish.
const LANDMARKS: [f64; 12] = [1e-4, 2e-4, 0.9998, 0.9999, 1.0001, 1.0002, 1.0, 3.380287, 829199.75, 1e20, 3e38, 1e-30];

/// Exponents where a square, a cube or a sum of squares vanishes, overflows or loses its fraction.
const EXPONENTS: [i32; 26] =
    [-149, -127, -126, -75, -74, -64, -63, -49, -42, -25, -24, -23, -12, -1, 0, 1, 11, 12, 20, 22, 23, 24, 62, 63, 64, 127];

/// The bits of a computed number. The sign of a computed NaN differs between machines, so that it is drawn.
pub fn bits_of(d: &mut Draw, x: f64) -> u32 {
    if x.is_nan() {
        return d.one_of(&[0x7fc00000, 0xffc00000]);
    }
    (x as f32).to_bits()
}

pub fn exact(bits: u32) -> f64 {
    f64::from(f32::from_bits(bits))
}

/// The number itself, or one at most three steps from it.
pub fn near(d: &mut Draw, bits: u32) -> u32 {
    if d.once_in(2) {
        return bits;
    }
    bits.wrapping_add(d.between(-3, 3) as u32)
}

pub fn around(d: &mut Draw, x: f64) -> u32 {
    let bits = bits_of(d, x);
    near(d, bits)
}

pub fn either_sign(d: &mut Draw, bits: u32) -> u32 {
    bits ^ (d.word() & 0x8000_0000)
}

/// Zeros of either sign.
pub fn zeros(d: &mut Draw) -> Vector {
    [(); 3].map(|()| d.word() & SIGN)
}

/// A vector along an axis, with zeros of either sign.
pub fn along_axis(d: &mut Draw, size: f64) -> Vector {
    let mut v = zeros(d);
    v[d.below(3) as usize] |= (size as f32).to_bits();
    v
}

/// The bits of a power of two.
pub fn power_of_two(exponent: i32) -> u32 {
    (2f64.powi(exponent) as f32).to_bits()
}

/// A power of two, or its product with the root of two.
pub fn power(d: &mut Draw) -> f64 {
    let exponent = if d.once_in(2) { d.one_of(&EXPONENTS) } else { d.between(-149, 127) };
    let power = 2f64.powi(exponent);
    if d.once_in(4) {
        power * SQRT_2
    } else {
        power
    }
}

/// A number with an exponent from `low` to `high`, both as in the bits.
pub fn with_exponent(d: &mut Draw, low: i32, high: i32) -> u32 {
    (d.word() & 0x807f_ffff) | (d.between(low, high) as u32) << 23
}

/// A large number and one whose exponent is lower by 8 to 254, which may be a subnormal number.
pub fn far_apart(d: &mut Draw) -> [u32; 2] {
    let high = d.between(8, 254);
    let low = d.between(0, high - 8);
    [with_exponent(d, high, high), with_exponent(d, low, low)]
}

/// A whole number or a half, of up to 25 digits.
fn half(d: &mut Draw) -> f64 {
    let digits = d.below(25) + 1;
    f64::from(d.word() >> (32 - digits)) * 0.5
}

/// A number with few digits, so that products and roots are exact or ties.
pub fn short(d: &mut Draw) -> u32 {
    let digits = d.below(14);
    with_exponent(d, 97, 157) & (u32::MAX << (23 - digits))
}

/// The square of a short number: its root is exact, or just not.
fn square(d: &mut Draw) -> f64 {
    let root = exact(short(d));
    root * root
}

/// Any number.
pub fn float(d: &mut Draw) -> u32 {
    let x = match d.below(16) {
        0..=2 => return d.word(),
        3 => return d.one_of(&SPECIAL),
        4 => return d.word() & 0x807f_ffff,
        5 => return short(d),
        6..=8 => return with_exponent(d, 117, 137),
        9 | 10 => power(d),
        11 => d.one_of(&LANDMARKS),
        12 | 13 => half(d),
        14 => square(d),
        _ => d.unit(),
    };
    let bits = around(d, x);
    either_sign(d, bits)
}

/// A number that has to do with the ones before it.
pub fn related(d: &mut Draw, before: &[u32]) -> u32 {
    let x = exact(d.one_of(before));
    let y = exact(d.one_of(before));
    let z = match d.below(9) {
        0 => x,
        1 => -x,
        2 => x * 2f64.powi(d.between(-30, 30)),
        3 => x * f64::from(d.below(1000)),
        4 => x / f64::from(d.below(1000)),
        5 => 1.0 / x,
        6 => x * y,
        7 => -(x * y),
        // a summand that decides how the product is rounded
        _ => x * y * 2f64.powi(d.between(-27, -21)),
    };
    around(d, z)
}

/// A direction, with components of one size or of very different sizes.
pub fn direction(d: &mut Draw) -> [f64; 3] {
    let mut v = [0.0; 3];
    for c in &mut v {
        *c = match d.below(8) {
            0 => 0.0,
            1 | 2 => d.unit() * 2f64.powi(d.between(-40, -1)),
            _ => d.unit(),
        };
    }
    let length = (v[0] * v[0] + v[1] * v[1] + v[2] * v[2]).sqrt();
    if length == 0.0 {
        return [0.0, 0.0, 1.0];
    }
    v.map(|c| c / length)
}

/// The vector `a`, moved by `size` into some direction.
pub fn moved(d: &mut Draw, a: [f64; 3], size: f64) -> Vector {
    let way = direction(d);
    [0, 1, 2].map(|i| bits_of(d, a[i] + way[i] * size))
}

/// A vector whose length is about 1, at the threshold of is_normalized now and then.
pub fn unit_vector(d: &mut Draw) -> Vector {
    let size = match d.below(6) {
        0 => (1.0 + d.one_of(&[2e-4, -2e-4]) + d.unit() * 1e-6).sqrt(),
        1 => 1.0 + d.unit() * 1e-5,
        _ => 1.0,
    };
    moved(d, [0.0; 3], size).map(|c| near(d, c))
}

/// Any vector.
pub fn vector(d: &mut Draw) -> Vector {
    match d.below(8) {
        0 | 1 => [(); 3].map(|()| float(d)),
        2 => {
            let exponent = d.between(4, 254);
            [(); 3].map(|()| with_exponent(d, exponent - 4, exponent))
        }
        3 => {
            let x = float(d);
            [(); 3].map(|()| d.one_of(&[x, x, x ^ 0x8000_0000, 0, 0x8000_0000]))
        }
        4 => [(); 3].map(|()| d.one_of(&SPECIAL)),
        5 => {
            let size = power(d);
            moved(d, [0.0; 3], size).map(|c| near(d, c))
        }
        6 => [(); 3].map(|()| with_exponent(d, 122, 132)),
        _ => unit_vector(d),
    }
}

/// A vector that has to do with the ones before it.
pub fn related_vector(d: &mut Draw, before: &[Vector]) -> Vector {
    let bits = d.one_of(before);
    let a = bits.map(exact);
    match d.below(8) {
        0 => bits,
        1 => bits.map(|c| c ^ 0x8000_0000),
        2 => bits.map(|c| near(d, c)),
        3 => {
            let scale = exact(float(d));
            a.map(|c| bits_of(d, c * scale))
        }
        // at a right angle
        4 => {
            let b = direction(d);
            let product = [a[1] * b[2] - b[1] * a[2], a[2] * b[0] - b[2] * a[0], a[0] * b[1] - b[0] * a[1]];
            product.map(|c| bits_of(d, c))
        }
        5 => {
            let size = d.one_of(&[5e-5, 1e-4, 2e-4, 1.0]) * (1.0 + d.unit() * 1e-6);
            moved(d, a, size)
        }
        6 => {
            let size = power(d);
            moved(d, a, size)
        }
        _ => [0, 1, 2].map(|i| related(d, &[before[0][i], before[before.len() - 1][i]])),
    }
}

/// A number that has to do with the vectors before it: a length, a distance, a part of the way, a ratio of refraction.
pub fn measure(d: &mut Draw, before: &[Vector]) -> u32 {
    let a = d.one_of(before).map(exact);
    let b = d.one_of(before).map(exact);
    let dot = |a: [f64; 3], b: [f64; 3]| a[0] * b[0] + a[1] * b[1] + a[2] * b[2];
    let between = [a[0] - b[0], a[1] - b[1], a[2] - b[2]];
    let x = match d.below(8) {
        0 => dot(a, a).sqrt(),
        1 => dot(between, between).sqrt(),
        2 => d.one_of(&between).abs(),
        // where total reflection begins
        3 => 1.0 / (1.0 - dot(a, b) * dot(a, b)).sqrt(),
        4 => d.unit().abs(),
        5 => exact(with_exponent(d, 125, 128)).abs(),
        6 => d.one_of(&[0.0, 0.5, 1.0, 1e-4]),
        _ => d.one_of(&a),
    };
    around(d, x)
}
