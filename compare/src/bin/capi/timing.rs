//! The time of one long list of commands through `bench_run` and through the plain sheet, both from numbers in memory to numbers in memory.

use crate::linked::LIBRARY;
use compare::library::{ANSWER, COMMAND};
use compare::sheet::{Command, Sheet};
use compare::sitting::Sitting;
use std::time::Instant;

/// Times `turns` turns over a list of `count` commands, the library first in the even turns and the plain sheet in the odd ones. Says whether
/// their answers are equal.
pub fn time(turns: usize, count: usize) -> bool {
    let list = Sitting::ordinary(1).long_list(count);
    let numbers: Vec<u32> = list.iter().flat_map(Command::numbers).collect();
    let mut answers = [(); 2].map(|()| vec![0; count * ANSWER]);
    let mut times = [(); 2].map(|()| Vec::new());
    for turn in 0..turns {
        for which in [turn % 2, 1 - turn % 2] {
            let began = Instant::now();
            if which == 0 {
                (LIBRARY.run)(&numbers, &mut answers[0]);
            } else {
                plain(&numbers, &mut answers[1]);
            }
            times[which].push(began.elapsed().as_secs_f64() * 1e9 / count as f64);
        }
    }
    let mut ratios: Vec<f64> = times[0].iter().zip(&times[1]).map(|(library, plain)| library / plain).collect();
    let [[library, library_median], [plain, plain_median]] = times.map(|mut taken| [least(&taken), median(&mut taken)]);
    println!("{count} commands, {turns} turns, ns a command");
    println!(
        "by the least time: plain {plain:.1}, library {library:.1}; the library takes {:.3} of the time of plain",
        library / plain
    );
    println!("by the median time: plain {plain_median:.1}, library {library_median:.1}; {:.3}", library_median / plain_median);
    println!("by the median of the ratios turn by turn: {:.3}", median(&mut ratios));
    answers[0] == answers[1]
}

/// The plain sheet called as the library is.
fn plain(numbers: &[u32], answers: &mut [u32]) {
    let mut sheet = Sheet::fresh();
    for (seven, six) in numbers.chunks_exact(COMMAND).zip(answers.chunks_exact_mut(ANSWER)) {
        let command = Command::of(seven.try_into().expect("it is seven numbers"));
        six.copy_from_slice(&sheet.run(&command).numbers());
    }
}

fn least(taken: &[f64]) -> f64 {
    taken.iter().copied().fold(f64::INFINITY, f64::min)
}

fn median(taken: &mut [f64]) -> f64 {
    taken.sort_by(f64::total_cmp);
    (taken[(taken.len() - 1) / 2] + taken[taken.len() / 2]) / 2.0
}
