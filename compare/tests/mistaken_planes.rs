//! Mistaken sheets whose offsets, numbers, points or refusals of planes are other ones: the answers of a sitting show each mistake.

mod mistaken;

use compare::sheet::{Answer, Command, Kind, Row, Sheet};
use mistaken::{refused, row, show_each, show_none};

type Vector = [f32; 3];

fn dot(a: Vector, b: Vector) -> f32 {
    a[0] * b[0] + a[1] * b[1] + a[2] * b[2]
}

fn fused_dot(a: Vector, b: Vector) -> f32 {
    a[2].mul_add(b[2], a[1].mul_add(b[1], a[0] * b[0]))
}

/// a plus b times a number.
fn onward(a: Vector, b: Vector, times: f32) -> Vector {
    [0, 1, 2].map(|i| a[i] + b[i] * times)
}

/// 34 with another offset, of the numbers of a and b.
fn offset(sheet: &mut Sheet, command: &Command, offset: fn(Vector, Vector) -> f32) -> Answer {
    let rows = (row(sheet, command.a, Kind::Point), row(sheet, command.b, Kind::Direction));
    let answer = sheet.run(command);
    if let (34, 0, (Some(a), Some(b))) = (command.number, answer.refusal, rows) {
        sheet.put(command.t, Row::of(Kind::Plane, b.numbers(), offset(a.numbers(), b.numbers())));
    }
    answer
}

/// 35 with another number, of the point, the normal and the offset.
fn over(sheet: &mut Sheet, command: &Command, over: fn(Vector, Vector, f32) -> f32) -> Answer {
    match (command.number, row(sheet, command.a, Kind::Point), row(sheet, command.b, Kind::Plane)) {
        (35, Some(a), Some(plane)) => match over(a.numbers(), plane.numbers(), plane.fourth()) {
            x if x.is_finite() => Answer::number(x),
            _ => refused(6),
        },
        _ => sheet.run(command),
    }
}

/// What 36 reads: its point, its direction, the plane's normal and offset.
struct Line {
    a: Vector,
    b: Vector,
    n: Vector,
    offset: f32,
}

impl Line {
    fn short_of_it(&self) -> f32 {
        self.offset - dot(self.n, self.a)
    }

    fn approach(&self) -> f32 {
        dot(self.n, self.b)
    }

    /// The point at so many times the direction, unless the product of normal and direction is zero.
    fn at(&self, times: f32) -> Result<Vector, u32> {
        if self.approach() == 0.0 {
            Err(12)
        } else {
            Ok(onward(self.a, self.b, times))
        }
    }
}

/// 36 with another point or another refusal, where its sources are of their kinds.
fn meeting(sheet: &mut Sheet, command: &Command, point: fn(&Line) -> Result<Vector, u32>) -> Answer {
    let rows = (
        row(sheet, command.a, Kind::Point),
        row(sheet, command.b, Kind::Direction),
        row(sheet, command.values[0], Kind::Plane),
    );
    let (36, 0..=63, (Some(a), Some(b), Some(plane))) = (command.number, command.t, rows) else {
        return sheet.run(command);
    };
    let line = Line { a: a.numbers(), b: b.numbers(), n: plane.numbers(), offset: plane.fourth() };
    match point(&line) {
        Ok(v) if v.iter().all(|x| x.is_finite()) => sheet.run(&Command { number: 1, values: v.map(f32::to_bits), ..*command }),
        Ok(_) => refused(6),
        Err(refusal) => refused(refusal),
    }
}

#[test]
fn right_numbers_show_nothing() {
    show_none(&[
        |s, c| offset(s, c, |a, b| dot(b, a)),
        |s, c| over(s, c, |a, n, offset| dot(a, n) - offset),
        |s, c| meeting(s, c, |l| l.at(l.short_of_it() / l.approach())),
    ]);
}

#[test]
fn mistakes_in_offsets_show() {
    show_each(&[
        ("a·a as the offset", |s, c| offset(s, c, |a, _| dot(a, a))),
        ("b·b as the offset", |s, c| offset(s, c, |_, b| dot(b, b))),
        ("minus the offset", |s, c| offset(s, c, |a, b| -dot(b, a))),
        ("no offset", |s, c| offset(s, c, |_, _| 0.0)),
        ("a fused product in 34", |s, c| offset(s, c, |a, b| fused_dot(b, a))),
        ("another order of the sum in 34", |s, c| offset(s, c, |a, b| a[0] * b[0] + (a[1] * b[1] + a[2] * b[2]))),
        ("an offset of -0 that is 0", |s, c| offset(s, c, |a, b| dot(b, a) + 0.0)),
        ("35 adds the offset", |s, c| over(s, c, |a, n, offset| dot(a, n) + offset)),
        ("35 the other way round", |s, c| over(s, c, |a, n, offset| offset - dot(a, n))),
        ("35 without the offset", |s, c| over(s, c, |a, n, _| dot(a, n))),
        ("a fused product in 35", |s, c| over(s, c, |a, n, offset| fused_dot(a, n) - offset)),
        ("35 starts from the offset", |s, c| over(s, c, |a, n, offset| -offset + a[0] * n[0] + a[1] * n[1] + a[2] * n[2])),
    ]);
}

#[test]
fn mistakes_in_the_point_of_36_show() {
    show_each(&[
        ("n·b for n·a", |s, c| meeting(s, c, |l| l.at((l.offset - l.approach()) / l.approach()))),
        ("n·a less the offset", |s, c| meeting(s, c, |l| l.at(-l.short_of_it() / l.approach()))),
        ("n·a alone", |s, c| meeting(s, c, |l| l.at(dot(l.n, l.a) / l.approach()))),
        ("no division", |s, c| meeting(s, c, |l| l.at(l.short_of_it()))),
        ("along the normal", |s, c| meeting(s, c, |l| l.at(0.0).map(|_| onward(l.a, l.n, l.short_of_it() / l.approach())))),
        ("the direction times the numerator first", |s, c| {
            meeting(s, c, |l| l.at(0.0).map(|_| [0, 1, 2].map(|i| l.a[i] + l.b[i] * l.short_of_it() / l.approach())))
        }),
        ("times the reciprocal", |s, c| meeting(s, c, |l| l.at(l.short_of_it() * l.approach().recip()))),
        ("a fused n·a", |s, c| meeting(s, c, |l| l.at((l.offset - fused_dot(l.n, l.a)) / l.approach()))),
        ("a fused n·b", |s, c| meeting(s, c, |l| l.at(l.short_of_it() / fused_dot(l.n, l.b)))),
        ("a fused sum", |s, c| {
            meeting(s, c, |l| {
                let times = l.short_of_it() / l.approach();
                l.at(0.0).map(|_| [0, 1, 2].map(|i| l.b[i].mul_add(times, l.a[i])))
            })
        }),
    ]);
}

#[test]
fn mistakes_in_refusals_of_36_show() {
    show_each(&[
        ("12 after 6", |s, c| meeting(s, c, |l| Ok(onward(l.a, l.b, l.short_of_it() / l.approach())))),
        ("6 of n·a before 12", |s, c| {
            meeting(s, c, |l| if l.short_of_it().is_finite() { l.at(l.short_of_it() / l.approach()) } else { Err(6) })
        }),
        ("-0 is not refused", |s, c| {
            meeting(s, c, |l| match l.approach() {
                x if x.to_bits() == 0 => Err(12),
                x => Ok(onward(l.a, l.b, l.short_of_it() / x)),
            })
        }),
        ("a product that vanishes is not refused", |s, c| {
            meeting(s, c, |l| {
                let exact: f64 = (0..3).map(|i| f64::from(l.n[i]) * f64::from(l.b[i])).sum();
                if exact == 0.0 {
                    Err(12)
                } else {
                    Ok(onward(l.a, l.b, l.short_of_it() / l.approach()))
                }
            })
        }),
        ("a subnormal product is refused by 12", |s, c| {
            meeting(s, c, |l| if l.approach().is_subnormal() { Err(12) } else { l.at(l.short_of_it() / l.approach()) })
        }),
        ("a small product is refused by 12", |s, c| {
            meeting(s, c, |l| if l.approach().abs() < 1e-6 { Err(12) } else { l.at(l.short_of_it() / l.approach()) })
        }),
        ("a point on the plane is refused by 12", |s, c| {
            meeting(s, c, |l| if l.short_of_it() == 0.0 { Err(12) } else { l.at(l.short_of_it() / l.approach()) })
        }),
        ("a plane behind is refused by 12", |s, c| {
            meeting(s, c, |l| if l.approach() < 0.0 { Err(12) } else { l.at(l.short_of_it() / l.approach()) })
        }),
    ]);
}
