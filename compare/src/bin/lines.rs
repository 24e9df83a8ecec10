//! The command that compare/lines calls: runs a sitting on the plain sheet, tells what it reached, and compares the program `bench` with it.

use compare::check::{compare, Comparison};
use compare::command::{status, Outcome};
use compare::sitting::Sitting;
use compare::tally::Tally;
use std::env;
use std::iter;
use std::process::{Command, ExitCode};

const USAGE: &str = "usage:
  compare/lines SEED COUNT    the named lines, then COUNT command lines by the seed, one in 16 of them malformed
  compare/lines SEED COUNT N  one in N of them malformed; none if N is 0";

const MALFORMED: u32 = 16;

/// The sizes of the parts in which the program gets its input: about a field, a line, a buffer, and in between.
const SIZES: [usize; 18] = [1, 65_536, 45, 46, 47, 3, 4_095, 4_096, 4_097, 7, 91, 92, 93, 30_011, 65_535, 1, 65_537, 200_003];

/// How much of a line is printed.
const WIDTH: usize = 200;

fn main() -> ExitCode {
    let words: Vec<String> = env::args().skip(1).collect();
    status(run(&words.iter().map(String::as_str).collect::<Vec<_>>()))
}

fn run(words: &[&str]) -> Outcome {
    let (seed, count, malformed) = match *words {
        [seed, count] => (seed, count, MALFORMED),
        [seed, count, malformed] => (seed, count, malformed.parse()?),
        _ => return Err(USAGE.into()),
    };
    let mut sitting = Sitting::new(seed.parse()?, malformed);
    let mut named = Vec::new();
    sitting.named(&mut named);
    let pieces = iter::once(named).chain(sitting.pieces(count.parse()?));
    let mut tally = Tally::default();
    let program = env::var_os("BENCH").ok_or("BENCH names no program: compare/lines builds one")?;
    let comparison = compare(&mut Command::new(program), &mut tally, pieces, &SIZES)?;
    print!("{tally}");
    let equal = tell(&comparison);
    Ok(if equal && tally.sound() { ExitCode::SUCCESS } else { ExitCode::FAILURE })
}

/// Prints the first differences and the counts, and says whether all is equal.
fn tell(comparison: &Comparison) -> bool {
    for difference in &comparison.first {
        println!("line      {}", quoted(&difference.line));
        println!("the Rust  {}", quoted(&difference.rust));
        println!("program   {}", quoted(&difference.program));
    }
    let equal = comparison.tell_end();
    println!("{} lines compared, {} different", comparison.compared, comparison.different);
    equal
}

fn quoted(line: &[u8]) -> String {
    let mut text = format!("\"{}\"", line.escape_ascii());
    text.truncate(WIDTH);
    text
}
