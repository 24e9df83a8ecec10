//! The command that compare/pairs calls: holds pairs of vectors with longer parts against the Rust and a program.

use compare::check::compare;
use compare::command::{option, status, Outcome, PROBE};
use compare::judge::Judge;
use compare::pairs::pieces;
use std::env;
use std::process::{Command, ExitCode};
use std::time::Instant;

const USAGE: &str = "usage:
  compare/pairs SEED COUNT  COUNT pairs of vectors by the seed, on probe and on the Rust
options:
  --program PROGRAM         another program than probe";

fn main() -> ExitCode {
    status(run(env::args().skip(1).collect()))
}

fn run(mut words: Vec<String>) -> Outcome {
    let program = option(&mut words, "--program").unwrap_or_else(|| PROBE.to_string());
    let [seed, count] = &words[..] else {
        return Err(USAGE.into());
    };
    compare_and_tell(&program, seed.parse()?, count.parse()?)
}

/// Compares, and prints the first pairs that are against or different, the outcomes, the time and the counts.
fn compare_and_tell(program: &str, seed: u64, count: u64) -> Outcome {
    let began = Instant::now();
    let mut judge = Judge::default();
    let comparison = compare(&mut Command::new(program), &mut judge, pieces(seed, count), &[])
        .map_err(|error| format!("{program}: {error}"))?;
    let seconds = began.elapsed().as_secs_f64();
    for judged in &judge.kept {
        print!("{judged}");
    }
    print!("{judge}");
    let equal = comparison.tell_end();
    println!("{seconds:.1} s, {:.1} million calls a second", comparison.compared as f64 / seconds / 1e6);
    println!("{} calls compared, {} different", comparison.compared, comparison.different);
    println!("{} pairs compared, {} against", judge.compared, judge.against);
    Ok(if equal && judge.sound() { ExitCode::SUCCESS } else { ExitCode::FAILURE })
}
