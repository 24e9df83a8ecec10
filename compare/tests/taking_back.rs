//! 33 of the plain sheet, held against a sheet that keeps copies of all rows, and the number of commands that are remembered.

use compare::sheet::{used, Answer, Command, Row, Sheet, REMEMBERED, TAKE_BACK};
use compare::sitting::remembered::lists;
use compare::sitting::Sitting;

/// The sheet as document 02 has it: before each command among 0 to 24, 34 and 36 that is done, a copy of all rows is kept with the command's t.
/// The sheets in it never run a 33.
struct Copying {
    sheet: Sheet,
    copies: Vec<(u32, Sheet)>,
}

impl Copying {
    fn fresh() -> Copying {
        Copying { sheet: Sheet::fresh(), copies: Vec::new() }
    }

    fn run(&mut self, command: &Command) -> Answer {
        if command.number == 33 {
            return self.take_back();
        }
        let before = self.sheet.clone();
        let answer = self.sheet.run(command);
        if answer.refusal == 0 && matches!(command.number, 0..=24 | 34 | 36) {
            self.copies.push((command.t, before));
            let forgotten = self.copies.len().saturating_sub(64);
            self.copies.drain(..forgotten);
        }
        answer
    }

    fn take_back(&mut self) -> Answer {
        let Some((t, before)) = self.copies.pop() else {
            return Answer { refusal: 11, row: 0, kind: 0, values: [0; 3] };
        };
        self.sheet = before;
        let row = &self.sheet.rows()[t as usize];
        Answer { refusal: 0, row: t, kind: row.kind() as u32, values: row.numbers().map(f32::to_bits) }
    }
}

/// All rows, as numbers that can be compared.
fn rows(sheet: &Sheet) -> Vec<[u32; 5]> {
    sheet.rows().iter().map(Row::words).collect()
}

/// Runs a list on both sheets. Tells how many 33 were done, and how many were refused.
fn run_both(list: &[Command]) -> (u64, u64) {
    let (mut plain, mut copying) = (Sheet::fresh(), Copying::fresh());
    let (mut done, mut refused) = (0, 0);
    for (place, command) in list.iter().enumerate() {
        let answer = plain.run(command);
        assert_eq!(answer, copying.run(command), "command {place}: {command:?}");
        if command.number == TAKE_BACK {
            assert!(rows(&plain) == rows(&copying.sheet), "the rows after command {place}");
            done += u64::from(answer.refusal == 0);
            refused += u64::from(answer.refusal == 11);
        }
    }
    assert!(rows(&plain) == rows(&copying.sheet), "the rows at the end");
    (done, refused)
}

#[test]
fn copies_of_all_rows_give_the_same() {
    let (mut done, mut refused) = (0, 0);
    for seed in 1..=4 {
        let counts = run_both(&Sitting::new(seed, 0).long_list(25_000));
        (done, refused) = (done + counts.0, refused + counts.1);
    }
    assert!(done >= 2000 && refused >= 50, "{done} done, {refused} refused");
    run_both(&Sitting::ordinary(1).long_list(10_000));
    let mut sitting = Sitting::new(5, 0);
    for _ in 0..60 {
        run_both(&sitting.list(1000));
    }
}

#[test]
fn as_many_as_are_remembered_can_be_taken_back() {
    for list in lists() {
        run_both(&list);
        let mut sheet = Sheet::fresh();
        let refusals: Vec<u32> = list.iter().map(|command| sheet.run(command).refusal).collect();
        let (last, others) = refusals.split_last().expect("it is not empty");
        assert!(*last == 11 && others.iter().all(|&refusal| refusal == 0), "{refusals:?}");
        let backs = list.iter().rev().take_while(|command| command.number == TAKE_BACK).count();
        assert!(backs == 1 || backs == REMEMBERED + 1);
    }
}

/// Where more points are made than are remembered, the first one stays, whose first number is 0.
#[test]
fn what_is_forgotten_stays() {
    let [_, filled, one_more, another, _] = lists();
    for (list, number) in [(filled, None), (one_more, Some(0.0)), (another, Some(0.0))] {
        let mut sheet = Sheet::fresh();
        for command in &list {
            sheet.run(command);
        }
        let kept: Vec<f32> = sheet.rows().iter().filter(|row| row.kind() as u32 == 1).map(|row| row.numbers()[0]).collect();
        assert_eq!(kept, Vec::from_iter(number));
    }
}

#[test]
fn it_uses_no_field() {
    let used = used(TAKE_BACK).expect("it is a command");
    assert!(!used.t && ![used.a, used.b, used.u].iter().any(|source| source.is_used()) && used.values == 0);
}
