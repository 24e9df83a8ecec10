//! Planes in a sitting by a seed: each outcome of the commands on planes and each sort of them that is listed here comes at least fifty times,
//! earlier commands are given planes, and no other row has a fourth number.

use compare::outcomes::{EXACT, PLANE};
use compare::sheet::{used, Answer, Command, Kind, Row, Sheet, TAKE_BACK};
use compare::sitting::Sitting;
use compare::tally::Tally;

const COMMANDS: usize = 500_000;
const LEAST: usize = 50;

/// A command, the rows before it, and its answer.
struct Seen<'a> {
    command: &'a Command,
    rows: &'a [Row],
    answer: Answer,
}

impl Seen<'_> {
    fn row(&self, row: u32) -> Option<&Row> {
        self.rows.get(row as usize)
    }

    fn u(&self) -> u32 {
        self.command.values[0]
    }

    /// Whether it is a command of a number with this refusal, or done where that is 0.
    fn is(&self, number: u32, refusal: u32) -> bool {
        self.command.number == number && self.answer.refusal == refusal
    }

    /// The products of the plane's normal and the direction in 36, which is done or refused by 12 or 6.
    fn products(&self) -> [f32; 3] {
        let [n, b] = [self.u(), self.command.b].map(|row| self.rows[row as usize].numbers());
        [n[0] * b[0], n[1] * b[1], n[2] * b[2]]
    }

    /// Their sum in f32.
    fn approach(&self) -> f32 {
        let [x, y, z] = self.products();
        x + y + z
    }

    /// Whether the rows that 36 reads have a product of normal and direction that vanishes: it is zero, and no exact product is.
    fn vanishes(&self) -> bool {
        let [n, b] = [self.u(), self.command.b].map(|row| self.rows[row as usize].numbers().map(f64::from));
        self.approach() == 0.0 && n[0] * b[0] + n[1] * b[1] + n[2] * b[2] != 0.0
    }

    fn kind_of(&self, row: u32) -> Option<Kind> {
        self.row(row).map(Row::kind)
    }
}

/// A sort of command, with a name.
type Sort = (&'static str, fn(&Seen) -> bool);

const SORTS: [Sort; 26] = [
    ("34 over a plane", |s| s.is(34, 0) && s.kind_of(s.command.t) == Some(Kind::Plane)),
    ("34 with t = a", |s| s.is(34, 0) && s.command.t == s.command.a),
    ("34 with t = b", |s| s.is(34, 0) && s.command.t == s.command.b),
    ("34 of a direction as a", |s| s.is(34, 4) && s.kind_of(s.command.a) == Some(Kind::Direction)),
    ("34 of a point as b", |s| s.is(34, 4) && s.kind_of(s.command.b) == Some(Kind::Point)),
    ("35 above zero", |s| s.is(35, 0) && f32::from_bits(s.answer.values[0]) > 0.0),
    ("35 below zero", |s| s.is(35, 0) && f32::from_bits(s.answer.values[0]) < 0.0),
    ("35 of zero", |s| s.is(35, 0) && f32::from_bits(s.answer.values[0]) == 0.0),
    ("35 of a direction", |s| s.is(35, 4) && s.kind_of(s.command.a) == Some(Kind::Direction)),
    ("35 with a point as b", |s| s.is(35, 4) && s.kind_of(s.command.b) == Some(Kind::Point)),
    ("36 with t = a", |s| s.is(36, 0) && s.command.t == s.command.a),
    ("36 with t = b", |s| s.is(36, 0) && s.command.t == s.command.b),
    ("36 with t = u", |s| s.is(36, 0) && s.command.t == s.u()),
    ("36 back to a plane behind", |s| s.is(36, 0) && s.approach() < 0.0),
    ("36 with u above 999", |s| s.is(36, 3) && s.u() > 999),
    ("36 with u that names an empty row", |s| s.is(36, 4) && s.kind_of(s.u()) == Some(Kind::Empty)),
    ("36 with u that names a point", |s| s.is(36, 4) && s.kind_of(s.u()) == Some(Kind::Point)),
    ("36 with u that names a direction", |s| s.is(36, 4) && s.kind_of(s.u()) == Some(Kind::Direction)),
    ("36 along the plane, by 0", |s| s.is(36, 12) && s.approach().is_sign_positive()),
    ("36 along the plane, by -0", |s| s.is(36, 12) && s.approach().is_sign_negative()),
    ("36 along the plane, by products that cancel", |s| s.is(36, 12) && s.products() != [0.0; 3]),
    ("36 along the plane, by products that vanish", |s| s.is(36, 12) && s.vanishes()),
    ("36 with a subnormal product", |s| s.is(36, 0) && s.approach().is_subnormal()),
    ("36 with a subnormal product, refused by 6", |s| s.is(36, 6) && s.approach().is_subnormal()),
    ("37 of -0", |s| s.is(37, 0) && s.answer.values[0] == 0x8000_0000),
    ("a plane in b that is not used", |s| {
        s.answer.refusal == 0
            && used(s.command.number).is_some_and(|used| used.a.is_used() && !used.b.is_used())
            && s.kind_of(s.command.b) == Some(Kind::Plane)
    }),
];

/// Goes through a sitting, and shows each of its commands.
fn go_through(mut see: impl FnMut(&Seen)) {
    let mut sheet = Sheet::fresh();
    for command in Sitting::new(1, 0).long_list(COMMANDS) {
        let rows = sheet.rows().to_vec();
        let answer = sheet.run(&command);
        see(&Seen { command: &command, rows: &rows, answer });
    }
}

#[test]
fn each_sort_comes_often() {
    let mut counts = [0; SORTS.len()];
    go_through(|seen| counts.iter_mut().zip(SORTS).for_each(|(count, (_, is_of))| *count += usize::from(is_of(seen))));
    for ((sort, _), count) in SORTS.iter().zip(counts) {
        assert!(count >= LEAST, "{sort}: {count}");
    }
}

#[test]
fn each_outcome_comes_often() {
    let mut tally = Tally::default();
    for command in Sitting::new(1, 0).long_list(COMMANDS) {
        tally.answer(Some(command));
    }
    let outcomes: [(usize, &[usize]); 8] = [
        (26, &[0, EXACT]),
        (27, &[0, EXACT]),
        (32, &[0, PLANE, 3, 4]),
        (TAKE_BACK as usize, &[0, PLANE, 11]),
        (34, &[PLANE, 3, 4, 6]),
        (35, &[0, 3, 4, 6]),
        (36, &[0, 3, 4, 12, 6]),
        (37, &[0, 3, 4]),
    ];
    for (number, outcomes) in outcomes {
        for &outcome in outcomes {
            let count = tally.counts[number][outcome];
            assert!(count >= LEAST as u64, "{number} with outcome {outcome}: {count}\n{tally}");
        }
    }
}

/// Each of the commands 2 to 31 is given a plane as each of its sources, and refuses it; most of these commands are given other rows.
#[test]
fn earlier_commands_are_given_planes() {
    let (mut given, mut done, mut all) = ([[0; 2]; 32], [0; 32], [0; 32]);
    go_through(|seen| {
        let Command { number, a, b, .. } = *seen.command;
        if !(2..32).contains(&number) {
            return;
        }
        let used = used(number).expect("there is the command");
        for (place, (source, row)) in [(used.a, a), (used.b, b)].into_iter().enumerate() {
            if source.is_used() && seen.kind_of(row) == Some(Kind::Plane) {
                assert!(matches!(seen.answer.refusal, 3 | 4), "{:?}", seen.command);
                given[number as usize][place] += usize::from(seen.answer.refusal == 4);
            }
        }
        all[number as usize] += 1;
        done[number as usize] += usize::from(seen.answer.refusal != 4);
    });
    for number in 2..32 {
        let used = used(number as u32).expect("there is the command");
        assert!(given[number][0] >= LEAST && (given[number][1] >= LEAST || !used.b.is_used()), "{number}: {:?}", given[number]);
        assert!(done[number] * 10 >= all[number] * 8, "{number}: {} of {} not refused by 4", done[number], all[number]);
    }
}

#[test]
fn only_planes_have_a_fourth_number() {
    let planes = |rows: &[Row]| rows.iter().filter(|row| row.kind() == Kind::Plane).count();
    let mut most = 0;
    go_through(|seen| {
        most = most.max(planes(seen.rows));
        assert!(seen.rows.iter().all(|row| row.kind() == Kind::Plane || row.words()[4] == 0), "before {:?}", seen.command);
        assert!(seen.rows.iter().all(|row| row.fourth().is_finite()), "before {:?}", seen.command);
    });
    assert!((4..=20).contains(&most), "{most} planes at most");
}
