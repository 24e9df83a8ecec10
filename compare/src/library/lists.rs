//! Lists of commands through `bench_run`, held against the plain sheet: the answers, the number that refuses a list, and each number that
//! has to stay as it was.

use super::lent::Lent;
use super::{Account, Library, ANSWER, COMMAND};
use crate::sheet::{Command, Refusal, ROWS};
use crate::sitting::{named, Sitting};
use crate::tally::Tally;
use crate::values::Draw;

/// Fewer numbers than this are lent beyond the answers.
const SPARE: u32 = 32;

/// Runs the named lists, then lists of `count` commands in all, each from a fresh sheet.
pub fn compare(library: &Library, account: &mut Account, tally: &mut Tally, seed: u64, count: u64) {
    let mut sitting = Sitting::new(seed, 0);
    let mut lists = Lists { library, account, tally, draw: Draw::new(seed), outcomes: [0; 10] };
    lists.compare(&[]);
    let mut commands = count;
    for list in named::lists() {
        lists.compare(&list);
        commands += list.len() as u64;
    }
    let mut left = count;
    while left > 0 {
        let list = sitting.list(left);
        lists.compare(&list);
        left -= list.len() as u64;
    }
    let [run, too_few, part] = [0, Refusal::Lent as usize, Refusal::Form as usize].map(|refusal| lists.outcomes[refusal]);
    println!("{commands} commands in lists from a fresh sheet: {run} calls run one, 9 refuses {too_few}, 1 refuses {part}");
}

struct Lists<'a> {
    library: &'a Library,
    account: &'a mut Account,
    tally: &'a mut Tally,
    draw: Draw,
    /// How many calls each number refuses; 0 for those that run their list.
    outcomes: [u64; 10],
}

impl Lists<'_> {
    /// Compares a list, and the list with a part of a command behind it: each with numbers to spare, just enough, one too few, or any.
    fn compare(&mut self, list: &[Command]) {
        self.tally.take_fresh_sheet();
        let right: Vec<u32> = list.iter().flat_map(|command| self.tally.answer(Some(*command)).numbers()).collect();
        let enough = right.len();
        let spare = self.draw.below(SPARE) as usize;
        let any = self.draw.below(enough as u32) as usize;
        let lengths = [enough + spare, enough, enough.saturating_sub(1), any];
        let mut numbers: Vec<u32> = list.iter().flat_map(Command::numbers).collect();
        lengths.iter().for_each(|&lent| self.call(&numbers, lent, &right));
        numbers.extend(part(&mut self.draw));
        lengths.iter().for_each(|&lent| self.call(&numbers, lent, &right));
    }

    /// Calls the library; `right` are the answers if the list is run.
    fn call(&mut self, numbers: &[u32], lent: usize, right: &[u32]) {
        let refusal = list_refusal(numbers.len(), lent).map_or(0, |refusal| refusal as u32);
        self.outcomes[refusal as usize] += 1;
        let mut answers = Lent::new(&mut self.draw, lent, Draw::word);
        if refusal == 0 {
            answers.is_to_hold(right);
        }
        let result = (self.library.run)(numbers, answers.all());
        let wrong = answers.wrong();
        self.account.note(result == refusal && wrong.is_none(), || {
            let answers = wrong.as_deref().unwrap_or("as they have to be");
            let count = numbers.len();
            format!("bench_run {count} numbers, room for {lent} lent\nright {refusal}, library {result}\nanswers: {answers}")
        });
    }
}

/// Why include/bench.h has a list refused.
pub(super) fn list_refusal(count: usize, lent: usize) -> Option<Refusal> {
    if lent < count / COMMAND * ANSWER {
        Some(Refusal::Lent)
    } else if count % COMMAND != 0 {
        Some(Refusal::Form)
    } else {
        None
    }
}

/// A part of a command.
pub(super) fn part(draw: &mut Draw) -> Vec<u32> {
    let length = 1 + draw.below(COMMAND as u32 - 1);
    (0..length).map(|_| draw.below(ROWS)).collect()
}
