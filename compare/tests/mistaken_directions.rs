//! Mistaken sheets that scale vectors in another way, or refuse others by 7: the answers of a sitting show each mistake.

mod mistaken;
mod scaling;

use compare::sheet::{Answer, Command, Kind, Sheet};
use mistaken::{refused, row, show_each, show_none};
use scaling::{direction_of, exponent, largest_exponent, nearest_even, scaled, times_power, try_normalize, Vector};

/// 2 with another direction, or none, of the numbers of a.
fn direction(sheet: &mut Sheet, command: &Command, of: fn(Vector) -> Option<Vector>) -> Answer {
    let a = row(sheet, command.a, Kind::Point).or(row(sheet, command.a, Kind::Direction));
    let answer = sheet.run(command);
    match (command.number, answer.refusal, a) {
        (2, 0 | 7, Some(a)) => match of(a.numbers()) {
            Some(v) => Answer { refusal: 0, row: command.t, kind: Kind::Direction as u32, values: v.map(f32::to_bits) },
            None => refused(7),
        },
        _ => answer,
    }
}

/// 2 with another power, by its exponent; none if a product overflows.
fn with_power(v: Vector, power: fn(Vector) -> Option<i32>) -> Option<Vector> {
    let power = power(v)?;
    let finite = v.map(|x| f64::from(x) * 2f64.powi(power)).iter().all(|product| product.abs() <= f32::MAX.into());
    if finite {
        try_normalize(scaled(v, power))
    } else {
        None
    }
}

/// 2 with products that become others, each by itself.
fn with_products(v: Vector, other: fn(f32) -> f32) -> Option<Vector> {
    try_normalize(scaled(v, -largest_exponent(v)?).map(other))
}

/// 2 with products that are rounded in another way.
fn with_rounding(v: Vector, round: fn(u64, u32) -> u64) -> Option<Vector> {
    let power = -largest_exponent(v)?;
    try_normalize(v.map(|x| times_power(x, power, round)))
}

/// 2 that refuses some vectors by 7, by what is computed for their squared length.
fn unless(v: Vector, none: fn(f32) -> bool) -> Option<Vector> {
    let [x, y, z] = v;
    direction_of(v).filter(|_| !none(x * x + y * y + z * z))
}

/// The sizes of the components.
fn sizes(v: Vector) -> Vector {
    v.map(f32::abs)
}

fn largest(v: Vector) -> f32 {
    v.into_iter().fold(f32::NEG_INFINITY, f32::max)
}

/// A sheet that does not refuse commands of some numbers by 7, where b is not zero.
fn not_by_7(sheet: &mut Sheet, command: &Command, numbers: &[u32]) -> Answer {
    let b = row(sheet, command.b, Kind::Point).filter(|b| b.numbers() != [0.0; 3]);
    match sheet.run(command) {
        Answer { refusal: 7, .. } if numbers.contains(&command.number) && b.is_some() => Answer::number(0.0),
        answer => answer,
    }
}

#[test]
fn right_directions_show_nothing() {
    show_none(&[
        |s, c| direction(s, c, direction_of),
        |s, c| direction(s, c, |v| with_power(v, |v| largest_exponent(v).map(|e| -e))),
        |s, c| direction(s, c, |v| with_products(v, |x| x)),
        |s, c| direction(s, c, |v| with_rounding(v, nearest_even)),
        |s, c| direction(s, c, |v| unless(v, |_| false)),
        |s, c| not_by_7(s, c, &[]),
    ]);
}

#[test]
fn mistakes_in_the_power_show() {
    show_each(&[
        ("no scaling", |s, c| direction(s, c, try_normalize)),
        ("divided by the largest size", |s, c| direction(s, c, |v| try_normalize(v.map(|x| x / largest(sizes(v)))))),
        ("the largest size from 2 to 4", |s, c| direction(s, c, |v| with_power(v, |v| largest_exponent(v).map(|e| 1 - e)))),
        ("the largest size from 1/2 to 1", |s, c| direction(s, c, |v| with_power(v, |v| largest_exponent(v).map(|e| -1 - e)))),
        ("the power for the first component", |s, c| {
            direction(s, c, |v| with_power(v, |v| largest_exponent(v).map(|_| -exponent(v[0]).unwrap_or(0))))
        }),
        ("the third component left out", |s, c| {
            direction(s, c, |v| with_power(v, |[x, y, z]| largest_exponent([x, y, 0.0]).or(exponent(z)).map(|e| -e)))
        }),
        ("the largest component for the largest size", |s, c| {
            direction(s, c, |v| with_power(v, |v| exponent(largest(v)).or(largest_exponent(v)).map(|e| -e)))
        }),
        ("the least component that is not zero", |s, c| {
            direction(s, c, |v| with_power(v, |v| v.into_iter().filter_map(exponent).min().map(|e| -e)))
        }),
        ("a power of at least 2^-126", |s, c| {
            direction(s, c, |v| with_power(v, |v| largest_exponent(v).map(|e| (-e).max(-126))))
        }),
        ("a subnormal power that is 0", |s, c| {
            direction(s, c, |v| direction_of(v).filter(|_| largest_exponent(v) != Some(127)))
        }),
    ]);
}

#[test]
fn mistakes_in_the_products_show() {
    show_each(&[
        ("2^-126, then 2^-1", |s, c| {
            direction(s, c, |v| match largest_exponent(v)? {
                127 => try_normalize(scaled(scaled(v, -126), -1)),
                _ => direction_of(v),
            })
        }),
        ("subnormal products are 0", |s, c| {
            direction(s, c, |v| with_products(v, |x| if x.is_subnormal() { 0f32.copysign(x) } else { x }))
        }),
        ("subnormal components are 0", |s, c| {
            direction(s, c, |v| match v.map(|x| if x.is_subnormal() { 0f32.copysign(x) } else { x }) {
                flushed if flushed == [0.0; 3] => direction_of(v),
                flushed => direction_of(flushed),
            })
        }),
        ("zeros have no sign", |s, c| direction(s, c, |v| with_products(v, |x| x + 0.0))),
        ("a component that vanishes has no sign", |s, c| {
            direction(s, c, |v| {
                let [x, y, z] = scaled(v, -largest_exponent(v)?);
                let unsigned = |old: f32, product: f32| if old == 0.0 { product } else { product + 0.0 };
                try_normalize([unsigned(v[0], x), unsigned(v[1], y), unsigned(v[2], z)])
            })
        }),
        ("rounded toward zero", |s, c| direction(s, c, |v| with_rounding(v, |m, bits| m >> bits))),
        ("rounded away from zero", |s, c| direction(s, c, |v| with_rounding(v, |m, bits| m.div_ceil(1 << bits)))),
        ("ties away from zero", |s, c| direction(s, c, |v| with_rounding(v, |m, bits| (m >> bits) + (m >> (bits - 1)) % 2))),
        ("ties toward zero", |s, c| {
            direction(s, c, |v| with_rounding(v, |m, bits| (m >> bits) + u64::from(m % (1 << bits) > 1 << (bits - 1))))
        }),
        ("ties to odd", |s, c| {
            direction(s, c, |v| {
                with_rounding(v, |m, bits| {
                    let (whole, rest, half) = (m >> bits, m % (1 << bits), 1 << (bits - 1));
                    whole + u64::from(rest > half || (rest == half && whole % 2 == 0))
                })
            })
        }),
    ]);
}

#[test]
fn mistakes_in_refusals_show() {
    show_each(&[
        ("subnormal arrows refused", |s, c| direction(s, c, |v| direction_of(v).filter(|_| largest_exponent(v) >= Some(-126)))),
        ("squares below 2^-126 refused", |s, c| direction(s, c, |v| unless(v, |square| square < f32::MIN_POSITIVE))),
        ("squares that vanish refused", |s, c| direction(s, c, |v| unless(v, |square| square == 0.0))),
        ("squares that overflow refused", |s, c| direction(s, c, |v| unless(v, |square| square == f32::INFINITY))),
        ("document 01's refusals and no scaling", |s, c| {
            direction(s, c, |v| unless(v, |square| square < f32::MIN_POSITIVE || square.is_infinite()).and(try_normalize(v)))
        }),
        ("three zeros have the direction X", |s, c| direction(s, c, |v| direction_of(v).or(Some([1.0, 0.0, 0.0])))),
        ("three zeros are their own direction", |s, c| direction(s, c, |v| direction_of(v).or(Some(v)))),
        ("11 onto a short arrow is done", |s, c| not_by_7(s, c, &[11])),
        ("12 from a short arrow is done", |s, c| not_by_7(s, c, &[12])),
        ("28 of a short arrow is done", |s, c| not_by_7(s, c, &[28])),
    ]);
}
