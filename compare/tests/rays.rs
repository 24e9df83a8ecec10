//! The comparison of 22, 23 and 24 itself (document 02, g): the rows that it lends, the plain sheet called as the library, which is equal, and
//! mistakes, which are found.

use compare::calls::{find, Results};
use compare::exact::{is_short, off_one, Size};
use compare::library::{rays, Account, Library};
use compare::rays::ratios::k;
use compare::rays::rows::{is_within, ray, related, Ray};
use compare::sheet::lines::{read, write_answer};
use compare::sheet::{Answer, Command, Kind, Row, Sheet, ROWS};
use compare::values::Draw;

/// The numbers in docs/FUNCTIONS.md of `normalize`, `reflect`, `refract`, `any_orthonormal_pair`, `scaled` and `direction_unchecked`.
const NORMALIZE: u32 = 71;
const REFLECT: u32 = 97;
const REFRACT: u32 = 98;
const PAIR: u32 = 102;
const SCALED: u32 = 122;
const UNCHECKED: u32 = 123;

const DRAWN: usize = 20_000;

/// How many lines show that nothing is different, and how many show a mistake.
const MANY: u64 = 20_000;
const LINES: u64 = 3_000;

/// The words of a row, and of a sheet here.
const ROW: usize = 5;
const WORDS: usize = ROWS as usize * ROW;

/// One command on a sheet, which may be mistaken.
type Step = fn(&mut Sheet, &Command) -> Answer;

/// The plain sheet as the library. Lines are all that is asked of it.
const RIGHT: Library = Library {
    words: || WORDS,
    fresh: |words| {
        words.fill(0);
        0
    },
    respond: |words, line, out| respond(words, line, out, Sheet::run),
    step: |_, _, _| unreachable!(),
    run_on: |_, _, _| unreachable!(),
    run: |_, _| unreachable!(),
};

/// `bench_respond` with a step of its own on the rows that lie in the words.
fn respond(words: &mut [u32], line: &[u8], out: &mut [u8], step: Step) -> u32 {
    let mut sheet = Sheet::fresh();
    for (t, row) in words.chunks_exact(ROW).enumerate() {
        let kind = [Kind::Empty, Kind::Point, Kind::Direction][row[0] as usize];
        sheet.put(t as u32, Row::of(kind, [row[1], row[2], row[3]].map(f32::from_bits), f32::from_bits(row[4])));
    }
    let answer = step(&mut sheet, &read(line).expect("the line is well formed"));
    let mut text = Vec::new();
    write_answer(&answer, &mut text);
    out.copy_from_slice(&text);
    words.iter_mut().zip(sheet.rows().iter().flat_map(Row::words)).for_each(|(word, right)| *word = right);
    answer.refusal
}

/// How many lines were different, and how many were answered by 7.
fn compared(library: &Library) -> (u64, u64) {
    let mut account = Account::default();
    let rays = rays::compare(library, &mut account, 1, LINES);
    (account.different, rays.by_7)
}

fn all_found(mistakes: &[(&str, fn(&mut [u32], &[u8], &mut [u8]) -> u32)]) {
    for &(mistake, respond) in mistakes {
        let (different, by_7) = compared(&Library { respond, ..RIGHT });
        assert!(different > 0 && by_7 == 0, "{mistake}: {different} different, {by_7} by 7");
    }
}

fn refused(refusal: u32) -> Answer {
    Answer { refusal, row: 0, kind: 0, values: [0; 3] }
}

/// The results of a function of the Rust, by its number.
fn rust(number: u32, vectors: &[Ray], ratio: &[u32]) -> Results {
    let arguments: Vec<u32> = vectors.iter().flatten().map(|x| x.to_bits()).chain(ratio.iter().copied()).collect();
    (find(number).expect("it is one of the functions").call)(&arguments)
}

/// A vector of the Rust.
fn vector(number: u32, vectors: &[Ray], ratio: &[u32]) -> Ray {
    let [x, y, z, ..] = rust(number, vectors, ratio);
    [x, y, z].map(f32::from_bits)
}

fn direction_of(v: Ray) -> Ray {
    vector(UNCHECKED, &[v], &[])
}

/// What the rows a and b hold; zeros for a row that there is not.
fn sources(sheet: &Sheet, command: &Command) -> [Ray; 2] {
    [command.a, command.b].map(|row| sheet.rows().get(row as usize).map_or([0.0; 3], Row::numbers))
}

/// A command of this number refused where the rows that it reads, and its ratio, are so; others are run.
fn refuses(sheet: &mut Sheet, command: &Command, number: u32, refusal: u32, so: fn(Ray, Ray, u32) -> bool) -> Answer {
    let [a, b] = sources(sheet, command);
    let is_done = sheet.clone().run(command).refusal == 0;
    if is_done && command.number == number && so(a, b, command.values[0]) {
        refused(refusal)
    } else {
        sheet.run(command)
    }
}

/// A command of this number with other directions in the rows from t on.
fn writes<const N: usize>(sheet: &mut Sheet, command: &Command, number: u32, others: fn(Ray, Ray, u32) -> [Ray; N]) -> Answer {
    let [a, b] = sources(sheet, command);
    let answer = sheet.run(command);
    if answer.refusal != 0 || command.number != number {
        return answer;
    }
    let rows = others(a, b, command.values[0]);
    for (t, row) in (command.t..).zip(rows) {
        sheet.put(t, Row::of(Kind::Direction, row, 0.0));
    }
    Answer { values: rows[0].map(f32::to_bits), ..answer }
}

/// The two vectors of a 24, without their directions.
fn pair(a: Ray) -> [Ray; 2] {
    let [x, y, z, u, v, w] = rust(PAIR, &[a], &[]).map(f32::from_bits);
    [[x, y, z], [u, v, w]]
}

/// `reflect` with a factor in place of 2.
fn reflected(a: Ray, b: Ray, factor: f32) -> Ray {
    let product = factor * (a[0] * b[0] + a[1] * b[1] + a[2] * b[2]);
    [a[0] - product * b[0], a[1] - product * b[1], a[2] - product * b[2]]
}

/// Whether a squared length is within 2^-24 of an end of the bound.
fn is_at_end(v: Ray) -> bool {
    off_one(v).steps() >= 63.0
}

#[test]
fn rows_that_are_lent_are_near_both_ends() {
    let mut draw = Draw::new(1);
    let (mut ends, mut exact, mut inside) = ([0; 2], 0, 0);
    for _ in 0..DRAWN {
        let first = ray(&mut draw);
        for v in [first, related(&mut draw, first)] {
            assert!(is_within(v), "{v:?}");
            let steps = off_one(v).steps();
            ends[usize::from(is_short(v))] += usize::from(steps >= 64.0 - 1.0 / 64.0);
            exact += usize::from(off_one(v) == Size::power(18));
            inside += usize::from(steps < 60.0);
        }
    }
    assert!(
        ends.iter().all(|&count| count >= DRAWN / 4) && exact >= DRAWN / 100 && inside >= DRAWN / 4,
        "{ends:?} {exact} {inside}"
    );
}

/// The exact squared length has to be within the bound, the bound itself included.
#[test]
fn the_bound() {
    let part = 1.0 / 512.0;
    assert!(is_within([1.0, 0.0, part]) && !is_within([1.0, f32::from_bits(1), part]));
    assert!(is_within([1.0, 0.0, part.next_down()]) && !is_within([1.0, 0.0, part.next_up()]));
}

#[test]
fn the_plain_sheet_is_equal() {
    let mut account = Account::default();
    let rays = rays::compare(&RIGHT, &mut account, 1, MANY);
    assert!(rays.sound() && rays.seen.missing() == 0, "{rays}");
    assert_eq!((account.compared, account.different), (MANY, 0));
}

/// Rows that are no directions by the bound may make vectors that are not finite, or zero.
#[test]
fn a_vector_without_a_direction_ends_the_plain_sheet() {
    let mut sheet = Sheet::fresh();
    sheet.put(0, Row::of(Kind::Direction, [f32::MAX, 0.0, 0.0], 0.0));
    sheet.put(1, Row::of(Kind::Direction, [0.0; 3], 0.0));
    for command in [[22, 2, 0, 0, 0, 0, 0], [22, 2, 1, 1, 0, 0, 0], [23, 2, 1, 1, 0x3f80_0000, 0, 0], [24, 2, 0, 0, 0, 0, 0]] {
        assert_eq!(sheet.try_run(&Command::of(command)), None, "{command:?}");
    }
}

#[test]
fn right_steps_show_nothing() {
    let right: [fn(&mut [u32], &[u8], &mut [u8]) -> u32; 5] = [
        |w, l, out| respond(w, l, out, |s, c| refuses(s, c, 22, 7, |_, _, _| false)),
        |w, l, out| respond(w, l, out, |s, c| writes(s, c, 22, |a, b, _| [direction_of(vector(REFLECT, &[a, b], &[]))])),
        |w, l, out| respond(w, l, out, |s, c| writes(s, c, 22, |a, b, _| [direction_of(reflected(a, b, 2.0))])),
        |w, l, out| respond(w, l, out, |s, c| writes(s, c, 23, |a, b, u| [direction_of(vector(REFRACT, &[a, b], &[u]))])),
        |w, l, out| respond(w, l, out, |s, c| writes(s, c, 24, |a, _, _| pair(a).map(direction_of))),
    ];
    for respond in right {
        assert_eq!(compared(&Library { respond, ..RIGHT }), (0, 0));
    }
}

#[test]
fn refusals_by_7_are_found_and_counted() {
    let by_7: [fn(&mut [u32], &[u8], &mut [u8]) -> u32; 4] = [
        |w, l, out| respond(w, l, out, |s, c| refuses(s, c, 22, 7, |_, b, _| is_at_end(b))),
        |w, l, out| respond(w, l, out, |s, c| refuses(s, c, 23, 7, |a, b, u| k(a, b, u) == 0.0)),
        |w, l, out| respond(w, l, out, |s, c| refuses(s, c, 24, 7, |a, _, _| is_at_end(a) && is_short(a))),
        // by the result alone
        |w, l, out| match respond(w, l, out, Sheet::run) {
            0 if l.starts_with(b" 24") => 7,
            result => result,
        },
    ];
    for respond in by_7 {
        let (different, by_7) = compared(&Library { respond, ..RIGHT });
        assert!(different > 0 && by_7 == different, "{different} different, {by_7} by 7");
    }
}

#[test]
fn mistakes_in_refusals_are_found() {
    all_found(&[
        ("8 where k is zero", |w, l, out| respond(w, l, out, |s, c| refuses(s, c, 23, 8, |a, b, u| k(a, b, u) <= 0.0))),
        ("5 where u is 4", |w, l, out| respond(w, l, out, |s, c| refuses(s, c, 23, 5, |_, _, u| f32::from_bits(u) >= 4.0))),
        ("5 where u is 0.25", |w, l, out| respond(w, l, out, |s, c| refuses(s, c, 23, 5, |_, _, u| f32::from_bits(u) <= 0.25))),
        ("4 where a row is at an end", |w, l, out| respond(w, l, out, |s, c| refuses(s, c, 24, 4, |a, _, _| is_at_end(a)))),
        ("no result", |w, l, out| respond(w, l, out, Sheet::run) * 0),
    ]);
}

#[test]
fn mistakes_in_directions_are_found() {
    all_found(&[
        ("divided by the length in 22", |w, l, out| {
            respond(w, l, out, |s, c| {
                writes(s, c, 22, |a, b, _| {
                    let scaled = vector(SCALED, &[vector(REFLECT, &[a, b], &[])], &[]);
                    [vector(NORMALIZE, &[scaled], &[])]
                })
            })
        }),
        ("divided by the length in 23", |w, l, out| {
            respond(w, l, out, |s, c| {
                writes(s, c, 23, |a, b, u| {
                    let scaled = vector(SCALED, &[vector(REFRACT, &[a, b], &[u])], &[]);
                    [vector(NORMALIZE, &[scaled], &[])]
                })
            })
        }),
        ("no direction of 22's vector", |w, l, out| {
            respond(w, l, out, |s, c| writes(s, c, 22, |a, b, _| [vector(REFLECT, &[a, b], &[])]))
        }),
        ("no direction of 23's vector", |w, l, out| {
            respond(w, l, out, |s, c| writes(s, c, 23, |a, b, u| [vector(REFRACT, &[a, b], &[u])]))
        }),
        ("no direction of 24's first vector", |w, l, out| {
            respond(w, l, out, |s, c| writes(s, c, 24, |a, _, _| [pair(a)[0], direction_of(pair(a)[1])]))
        }),
        ("no direction of 24's second vector", |w, l, out| {
            respond(w, l, out, |s, c| writes(s, c, 24, |a, _, _| [direction_of(pair(a)[0]), pair(a)[1]]))
        }),
        ("a factor just below 2 in 22", |w, l, out| {
            respond(w, l, out, |s, c| writes(s, c, 22, |a, b, _| [direction_of(reflected(a, b, 2f32.next_down()))]))
        }),
        ("no total reflection beyond k = 0: all is reflected there in 23", |w, l, out| {
            respond(w, l, out, |s, c| {
                writes(s, c, 23, |a, b, u| match k(a, b, u) {
                    0.0 => [direction_of(vector(REFLECT, &[a, b], &[]))],
                    _ => [direction_of(vector(REFRACT, &[a, b], &[u]))],
                })
            })
        }),
        ("a z of -0 taken for 0 in 24", |w, l, out| {
            respond(w, l, out, |s, c| writes(s, c, 24, |[x, y, z], _, _| pair([x, y, z + 0.0]).map(direction_of)))
        }),
    ]);
}

#[test]
fn mistakes_in_rows_are_found() {
    all_found(&[
        ("t + 1 left as it was", |w, l, out| {
            respond(w, l, out, |s, c| {
                let behind = s.rows().get(c.t as usize + 1).copied();
                let answer = s.run(c);
                if let (24, Some(row)) = (c.number, behind) {
                    s.put(c.t + 1, row);
                }
                answer
            })
        }),
        ("t left as it was", |w, l, out| respond(w, l, out, |s, c| if c.number < 22 { s.run(c) } else { s.clone().run(c) })),
        ("another row written", |w, l, out| {
            respond(w, l, out, |s, c| {
                let answer = s.run(c);
                if let (22, 0, 0..=61) = (c.number, answer.refusal, c.t) {
                    s.put(c.t + 2, Row::of(Kind::Direction, [1.0, 0.0, 0.0], 0.0));
                }
                answer
            })
        }),
        ("a fourth number", |w, l, out| {
            respond(w, l, out, |s, c| {
                let answer = s.run(c);
                if let (22, 0) = (c.number, answer.refusal) {
                    let row = s.rows()[c.t as usize];
                    s.put(c.t, Row::of(row.kind(), row.numbers(), -0.0));
                }
                answer
            })
        }),
    ]);
}
