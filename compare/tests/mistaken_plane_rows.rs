//! Mistaken sheets: they read another row in 36's u, take rows of another kind, or do not take planes back. The answers of a sitting show each
//! mistake. What no answer shows, the fourth number of a row that is no plane, is tested in library.rs.

mod mistaken;

use compare::sheet::{used, Answer, Command, Kind, Row, Sheet, TAKE_BACK};
use mistaken::{refused, row, show_each, show_none, shows, sitting};

/// A command of a number that takes a row of one kind for one of another.
fn taken_for(sheet: &mut Sheet, command: &Command, number: u32, field: u32, kinds: [Kind; 2]) -> Answer {
    let Some(old) = row(sheet, field, kinds[0]).filter(|_| command.number == number) else {
        return sheet.run(command);
    };
    sheet.put(field, Row::of(kinds[1], old.numbers(), old.fourth()));
    let answer = sheet.run(command);
    let written = answer.refusal == 0 && used(number).is_some_and(|used| used.t && command.t == field);
    if !written {
        sheet.put(field, old);
    }
    answer
}

/// A sheet that reads another number in 36's u.
fn u_read_as(sheet: &mut Sheet, command: &Command, read: fn(u32) -> u32) -> Answer {
    let [u, v, w] = command.values;
    let u = if command.number == 36 { read(u) } else { u };
    sheet.run(&Command { values: [u, v, w], ..*command })
}

/// A sheet that refuses a command by another number, where it is done.
fn refused_too(sheet: &mut Sheet, command: &Command, refusal: u32) -> Answer {
    match sheet.clone().run(command).refusal {
        0 => refused(refusal),
        _ => sheet.run(command),
    }
}

#[test]
fn mistakes_in_fields_of_36_show() {
    show_each(&[
        ("the plane read after t is written", |s, c| {
            if c.number == 36 && c.t == c.values[0] {
                refused_too(s, c, 4)
            } else {
                s.run(c)
            }
        }),
        ("v and w have to be finite", |s, c| {
            let finite = c.values[1..].iter().all(|&bits| f32::from_bits(bits).is_finite());
            if c.number == 36 && !finite {
                refused_too(s, c, 5)
            } else {
                s.run(c)
            }
        }),
        ("u above 63 refused by 4", |s, c| match s.run(c) {
            answer if answer.refusal == 3 && c.number == 36 && [c.t, c.a, c.b].iter().all(|&row| row < 64) => refused(4),
            answer => answer,
        }),
        ("u as a float", |s, c| u_read_as(s, c, |u| f32::from_bits(u) as u32)),
        ("6 bits of u", |s, c| u_read_as(s, c, |u| u % (1 << 6))),
        ("8 bits of u", |s, c| u_read_as(s, c, |u| u % (1 << 8))),
        ("16 bits of u", |s, c| u_read_as(s, c, |u| u % (1 << 16))),
        ("31 bits of u", |s, c| u_read_as(s, c, |u| u % (1 << 31))),
    ]);
}

#[test]
fn mistakes_in_kinds_show() {
    use Kind::{Direction, Empty, Plane, Point};
    show_each(&[
        ("a direction as a in 34", |s, c| taken_for(s, c, 34, c.a, [Direction, Point])),
        ("a plane as a in 34", |s, c| taken_for(s, c, 34, c.a, [Plane, Point])),
        ("an empty row as a in 34", |s, c| taken_for(s, c, 34, c.a, [Empty, Point])),
        ("a point as b in 34", |s, c| taken_for(s, c, 34, c.b, [Point, Direction])),
        ("a plane as b in 34", |s, c| taken_for(s, c, 34, c.b, [Plane, Direction])),
        ("a direction as a in 35", |s, c| taken_for(s, c, 35, c.a, [Direction, Point])),
        ("a plane as a in 35", |s, c| taken_for(s, c, 35, c.a, [Plane, Point])),
        ("a direction as b in 35", |s, c| taken_for(s, c, 35, c.b, [Direction, Plane])),
        ("a point as b in 35", |s, c| taken_for(s, c, 35, c.b, [Point, Plane])),
        ("a direction as a in 36", |s, c| taken_for(s, c, 36, c.a, [Direction, Point])),
        ("a plane as a in 36", |s, c| taken_for(s, c, 36, c.a, [Plane, Point])),
        ("a point as b in 36", |s, c| taken_for(s, c, 36, c.b, [Point, Direction])),
        ("a plane as b in 36", |s, c| taken_for(s, c, 36, c.b, [Plane, Direction])),
        ("a point named by u", |s, c| taken_for(s, c, 36, c.values[0], [Point, Plane])),
        ("a direction named by u", |s, c| taken_for(s, c, 36, c.values[0], [Direction, Plane])),
        ("an empty row named by u", |s, c| taken_for(s, c, 36, c.values[0], [Empty, Plane])),
        ("a direction in 37", |s, c| taken_for(s, c, 37, c.a, [Direction, Plane])),
        ("a point in 37", |s, c| taken_for(s, c, 37, c.a, [Point, Plane])),
        ("a plane that 32 refuses", |s, c| match row(s, c.a, Plane) {
            Some(_) if c.number == 32 => refused(4),
            _ => s.run(c),
        }),
        ("a plane refused in b that is not used", |s, c| match (used(c.number), row(s, c.b, Plane)) {
            (Some(used), Some(_)) if used.a.is_used() && !used.b.is_used() && s.clone().run(c).refusal == 0 => refused(4),
            _ => s.run(c),
        }),
    ]);
}

/// An earlier command that takes a plane for a point or a direction, one command at a time.
#[test]
fn planes_that_earlier_commands_take_show() {
    let sitting = sitting();
    for number in 2..32 {
        let used = used(number).expect("there is the command");
        let direction = |sheet: &mut Sheet, command: &Command, field: u32| {
            taken_for(sheet, command, number, field, [Kind::Plane, Kind::Direction])
        };
        assert!(shows(&sitting, |sheet, command| direction(sheet, command, command.a)), "{number} takes a plane as a");
        if used.b.is_used() {
            assert!(shows(&sitting, |sheet, command| direction(sheet, command, command.b)), "{number} takes a plane as b");
        }
    }
}

/// A command that is done and not remembered.
fn not_remembered(sheet: &mut Sheet, command: &Command, number: u32) -> Answer {
    let mut copy = sheet.clone();
    let answer = copy.run(command);
    if command.number == number && answer.refusal == 0 {
        sheet.put(command.t, copy.rows()[command.t as usize]);
    } else {
        *sheet = copy;
    }
    answer
}

/// A 33 after which a plane that it brought back, in row t or so many rows behind it, is another row, made from what lay there before and from
/// the plane.
fn back_as(sheet: &mut Sheet, command: &Command, behind: u32, other: fn(&Row, &Row) -> Row) -> Answer {
    let before = sheet.rows().to_vec();
    let answer = sheet.run(command);
    let place = answer.row + behind;
    if let (TAKE_BACK, Some(plane)) = (command.number, row(sheet, place, Kind::Plane)) {
        let overwriting = &before[place as usize];
        if overwriting.words() != plane.words() {
            sheet.put(place, other(overwriting, &plane));
        }
    }
    answer
}

#[test]
fn mistakes_in_taking_back_show() {
    show_each(&[
        ("34 is not remembered", |s, c| not_remembered(s, c, 34)),
        ("36 is not remembered", |s, c| not_remembered(s, c, 36)),
        ("33 forgets the offset", |s, c| back_as(s, c, 0, |_, plane| Row::of(Kind::Plane, plane.numbers(), 0.0))),
        ("33 forgets the offset behind t", |s, c| back_as(s, c, 1, |_, plane| Row::of(Kind::Plane, plane.numbers(), 0.0))),
        ("33 leaves the offset", |s, c| back_as(s, c, 0, |now, plane| Row::of(Kind::Plane, plane.numbers(), now.fourth()))),
        ("33 makes it a direction", |s, c| back_as(s, c, 0, |_, plane| Row::of(Kind::Direction, plane.numbers(), 0.0))),
    ]);
}

#[test]
fn right_rows_show_nothing() {
    show_none(&[
        |s, c| taken_for(s, c, 34, c.a, [Kind::Point, Kind::Point]),
        |s, c| taken_for(s, c, 36, c.values[0], [Kind::Plane, Kind::Plane]),
        |s, c| u_read_as(s, c, |u| u),
        |s, c| not_remembered(s, c, 99),
        |s, c| back_as(s, c, 0, |_, plane| *plane),
        |s, c| back_as(s, c, 1, |_, plane| *plane),
    ]);
}
