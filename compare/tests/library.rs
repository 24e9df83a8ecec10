//! The comparison of the library itself: the plain sheet called as include/bench.h has it is equal, and each mistake in a function is found.

mod standin;

use compare::library::{arrows, kept, lists, Account, Library};
use compare::sheet::{Kind, EXACT_ROOT, TAKE_BACK};
use compare::tally::Tally;
use standin::{fresh, respond, run, run_on, step, FORM, LENT, RIGHT, ROW, WORDS};

/// The bits of -0.
const MINUS_ZERO: u32 = 0x8000_0000;

/// The calls compared and those that were different.
fn compared(library: &Library) -> (u64, u64) {
    let (mut account, mut tally) = (Account::default(), Tally::default());
    lists::compare(library, &mut account, &mut tally, 1, 1000);
    kept::compare(library, &mut account, &mut tally, 1, 6000);
    (account.compared, account.different)
}

fn all_found(mistakes: &[(&str, Library)]) {
    for (mistake, library) in mistakes {
        assert!(compared(library).1 > 0, "{mistake} is not found");
    }
}

/// How many arrows were different, and how many largest exponents they had.
fn compared_arrows(library: &Library) -> (u64, usize) {
    let mut account = Account::default();
    let scales = arrows::compare(library, &mut account, 1, 1000);
    (account.different, scales.seen().0)
}

/// Writes a number to a place of the memory, if there is the place. Gives 0, to be added to a result.
fn put<T>(memory: &mut [T], place: usize, number: T) -> u32 {
    if let Some(there) = memory.get_mut(place) {
        *there = number;
    }
    0
}

#[test]
fn the_plain_sheet_is_equal() {
    let (compared, different) = compared(&RIGHT);
    assert!(compared > 2000 && different == 0);
}

#[test]
fn mistakes_of_fresh_are_found() {
    all_found(&[
        ("a word too many", Library { words: || WORDS + 1, ..RIGHT }),
        ("no refusal", Library { fresh: |w| fresh(w) * 0, ..RIGHT }),
        ("a word left", Library { fresh: |w| fresh(w) + put(w, WORDS - 1, 7), ..RIGHT }),
        ("a word behind the sheet", Library { fresh: |w| fresh(w) + put(w, WORDS, 0), ..RIGHT }),
    ]);
}

#[test]
fn mistakes_of_step_are_found() {
    let refused_changes = |w: &mut [u32], n: &[u32; 7], out: &mut [u32]| match step(w, n, out) {
        0 => 0,
        refusal => refusal + put(w, 1, 7),
    };
    let nothing_taken_back = |w: &mut [u32], n: &[u32; 7], out: &mut [u32]| match n[0] {
        TAKE_BACK => step(&mut w.to_vec(), n, out),
        _ => step(w, n, out),
    };
    let no_exact_root = |w: &mut [u32], n: &[u32; 7], out: &mut [u32]| {
        let refusal = step(w, n, out);
        if let [0, 0, kind @ EXACT_ROOT, ..] = out {
            *kind = 3;
        }
        refusal
    };
    all_found(&[
        ("kind 3 in place of 5", Library { step: no_exact_root, ..RIGHT }),
        ("nothing taken back", Library { step: nothing_taken_back, ..RIGHT }),
        ("sources exchanged", Library { step: |w, &[n, t, a, b, x, y, z], out| step(w, &[n, t, b, a, x, y, z], out), ..RIGHT }),
        ("the sheet left as it was", Library { step: |w, n, out| step(&mut w.to_vec(), n, out), ..RIGHT }),
        (
            "run without room",
            Library { step: |w, n, out| if out.len() < 6 { step(w, n, &mut [0; 6]) } else { step(w, n, out) }, ..RIGHT },
        ),
        ("a seventh number", Library { step: |w, n, out| step(w, n, out) + put(out, 6, 0), ..RIGHT }),
        ("a word behind the sheet", Library { step: |w, n, out| step(w, n, out) + put(w, WORDS, 0), ..RIGHT }),
        ("a word where refused", Library { step: refused_changes, ..RIGHT }),
        (
            "no answer for few words",
            Library { step: |w, n, out| if w.len() < WORDS { LENT } else { step(w, n, out) }, ..RIGHT },
        ),
        ("no refusal", Library { step: |w, n, out| step(w, n, out) * 0, ..RIGHT }),
    ]);
}

/// `bench_step`, by a stand-in for it.
type Step = fn(&mut [u32], &[u32; 7], &mut [u32]) -> u32;

/// A step after which the fourth number of each row is another one, by the command's number and by the row as it was and as it is.
fn with_fourth(w: &mut [u32], n: &[u32; 7], out: &mut [u32], fourth: fn(u32, &[u32], &[u32]) -> u32) -> u32 {
    let before = w.to_vec();
    let refusal = step(w, n, out);
    if w.len() >= WORDS && *w != before {
        for (row, before) in w[..WORDS].chunks_exact_mut(ROW).zip(before.chunks_exact(ROW)) {
            row[4] = fourth(n[0], before, row);
        }
    }
    refusal
}

/// The fourth number of a row that keeps that of the plane which it overwrites, if it is of a kind.
fn kept(kind: u32, before: &[u32], row: &[u32]) -> u32 {
    if before[0] == Kind::Plane as u32 && row[0] == kind {
        before[4]
    } else {
        row[4]
    }
}

/// Of these mistakes only the last two show in an answer, and not at once.
#[test]
fn mistakes_of_fourth_numbers_are_found() {
    let by_point: Step = |w, n, out| with_fourth(w, n, out, |_, before, row| kept(1, before, row));
    let by_direction: Step = |w, n, out| with_fourth(w, n, out, |_, before, row| kept(2, before, row));
    let by_empty_row: Step = |w, n, out| with_fourth(w, n, out, |_, before, row| kept(0, before, row));
    let without_sign: Step = |w, n, out| with_fourth(w, n, out, |_, _, row| if row[4] == MINUS_ZERO { 0 } else { row[4] });
    let forgotten: Step =
        |w, n, out| with_fourth(w, n, out, |number, before, row| if number == TAKE_BACK && before != row { 0 } else { row[4] });
    all_found(&[
        ("an offset that a point keeps", Library { step: by_point, ..RIGHT }),
        ("an offset that a direction keeps", Library { step: by_direction, ..RIGHT }),
        ("an offset that an empty row keeps", Library { step: by_empty_row, ..RIGHT }),
        ("an offset of -0 that is 0", Library { step: without_sign, ..RIGHT }),
        ("an offset that 33 forgets", Library { step: forgotten, ..RIGHT }),
    ]);
}

#[test]
fn mistakes_of_respond_are_found() {
    all_found(&[
        ("a byte 0 behind", Library { respond: |w, l, out| respond(w, l, out) + put(out, 43, 0), ..RIGHT }),
        ("a line feed taken", Library { respond: |w, l, out| respond(w, l.strip_suffix(b"\n").unwrap_or(l), out), ..RIGHT }),
        ("few words first", Library { respond: |w, l, out| if w.len() < WORDS { LENT } else { respond(w, l, out) }, ..RIGHT }),
        (
            "run without room",
            Library { respond: |w, l, o| if o.len() < 43 { respond(w, l, &mut [0; 43]) } else { respond(w, l, o) }, ..RIGHT },
        ),
        ("the sheet left as it was", Library { respond: |w, l, out| respond(&mut w.to_vec(), l, out), ..RIGHT }),
    ]);
}

#[test]
fn mistakes_of_lists_are_found() {
    let part_run = |w: &mut [u32], c: &[u32], out: &mut [u32]| match run_on(w, c, out) {
        FORM => FORM + run_on(w, &c[..c.len() / 7 * 7], out),
        refusal => refusal,
    };
    let first_twice = |w: &mut [u32], c: &[u32], out: &mut [u32]| {
        c.first_chunk().map(|seven| step(w, seven, &mut [0; 6]));
        run_on(w, c, out)
    };
    all_found(&[
        ("a fresh sheet", Library { run_on: |w, c, out| if w.len() < WORDS { LENT } else { run(c, out) }, ..RIGHT }),
        ("run up to the part of a command", Library { run_on: part_run, ..RIGHT }),
        ("the part first", Library { run_on: |w, c, out| if c.len() % 7 != 0 { FORM } else { run_on(w, c, out) }, ..RIGHT }),
        ("the first command twice", Library { run_on: first_twice, ..RIGHT }),
        ("the part first, fresh", Library { run: |c, out| if c.len() % 7 != 0 { FORM } else { run(c, out) }, ..RIGHT }),
        ("a number behind", Library { run: |c, out| run(c, out) + put(out, c.len() / 7 * 6, 0), ..RIGHT }),
    ]);
}

#[test]
fn mistakes_in_arrows_are_found() {
    let (different, exponents) = compared_arrows(&RIGHT);
    assert!(different == 0 && exponents > 200, "{different} different, {exponents} exponents");
    let without_subnormal: Step = |w, &[n, t, a, b, x, y, z], out| {
        let [x, y, z] = [x, y, z].map(|bits| if f32::from_bits(bits).is_subnormal() { bits & MINUS_ZERO } else { bits });
        step(w, &[n, t, a, b, x, y, z], out)
    };
    let short_refused: Step = |w, n, out| {
        let short = n[0] == 2 && w[n[2] as usize * ROW + 1..][..3].iter().all(|bits| bits & !MINUS_ZERO < 1 << 23);
        step(w, &[if short { 99 } else { n[0] }, n[1], n[2], n[3], n[4], n[5], n[6]], out)
    };
    let not_written: Step = |w, n, out| if n[0] == 2 { step(&mut w.to_vec(), n, out) } else { step(w, n, out) };
    let no_minus_zero: Step = |w, n, out| {
        let refusal = step(w, n, out);
        out.iter_mut().filter(|bits| **bits == MINUS_ZERO).for_each(|bits| *bits = 0);
        refusal
    };
    for (mistake, step) in [
        ("subnormal numbers that are 0", without_subnormal),
        ("subnormal arrows refused", short_refused),
        ("no row written by 2", not_written),
        ("-0 that is 0", no_minus_zero),
        ("no refusal", |w, n, out| match step(w, n, out) {
            7 => 0,
            refusal => refusal,
        }),
    ] {
        assert!(compared_arrows(&Library { step, ..RIGHT }).0 > 0, "{mistake} is not found");
    }
}
