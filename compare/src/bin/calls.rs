//! The command that compare/calls calls: compares a program with the Rust, writes samples, or answers lines by the Rust.

use compare::calls::{called_by, functions_of, FUNCTIONS};
use compare::check::{compare, Difference};
use compare::command::{option, status, Outcome, PROBE};
use compare::generate::Generator;
use compare::{decimal, oracle};
use std::env;
use std::fs;
use std::io::{self, BufRead, Write};
use std::process::{Command, ExitCode};
use std::time::Instant;

const USAGE: &str = "usage:
  compare/calls SEED COUNT                         compare COUNT calls of probe with the Rust
  compare/calls --sample SEED COUNT CALLS ANSWERS  write calls to one file, the Rust's answers to another
  compare/calls --answer                           answer the call lines of standard input by the Rust
options:
  --only NUMBERS                                 these functions alone, as in 1-15,43
  --program PROGRAM                              another program than probe";

/// How much of a line is printed.
const WIDTH: usize = 200;

fn main() -> ExitCode {
    status(run(env::args().skip(1).collect()))
}

fn run(mut words: Vec<String>) -> Outcome {
    let program = option(&mut words, "--program").unwrap_or_else(|| PROBE.to_string());
    let functions = match option(&mut words, "--only") {
        Some(list) => functions_of(&list)?,
        None => FUNCTIONS.iter().collect(),
    };
    let words: Vec<&str> = words.iter().map(String::as_str).collect();
    match words[..] {
        ["--answer"] => answer(),
        ["--sample", seed, count, calls, answers] => {
            sample(Generator::new(seed.parse()?, functions), count.parse()?, calls, answers)
        }
        [seed, count] => compare_and_tell(&program, Generator::new(seed.parse()?, functions), count.parse()?),
        _ => Err(USAGE.into()),
    }
}

/// Answers the lines of standard input.
fn answer() -> Outcome {
    let mut calls = io::stdin().lock();
    let mut answers = io::BufWriter::new(io::stdout().lock());
    let (mut line, mut answered) = (Vec::new(), Vec::new());
    while calls.read_until(b'\n', &mut line)? > 0 {
        oracle::answer_all(&line, &mut answered);
        answers.write_all(&answered)?;
        line.clear();
        answered.clear();
    }
    answers.flush()?;
    Ok(ExitCode::SUCCESS)
}

/// Writes calls to one file and their answers to another.
fn sample(mut generator: Generator, count: u64, calls: &str, answers: &str) -> Outcome {
    let mut lines = Vec::new();
    for _ in 0..count {
        generator.line(&mut lines);
    }
    let mut answered = Vec::new();
    oracle::answer_all(&lines, &mut answered);
    fs::write(calls, lines)?;
    fs::write(answers, answered)?;
    Ok(ExitCode::SUCCESS)
}

/// Compares, and prints the first differences, the time and the counts.
fn compare_and_tell(program: &str, generator: Generator, count: u64) -> Outcome {
    let began = Instant::now();
    let comparison = compare(&mut Command::new(program), &mut oracle::Oracle, generator.pieces(count), &[])
        .map_err(|error| format!("{program}: {error}"))?;
    let seconds = began.elapsed().as_secs_f64();
    for difference in &comparison.first {
        tell(difference);
    }
    let equal = comparison.tell_end();
    println!("{seconds:.1} s, {:.1} million calls a second", comparison.compared as f64 / seconds / 1e6);
    println!("{} calls compared, {} different", comparison.compared, comparison.different);
    Ok(if equal { ExitCode::SUCCESS } else { ExitCode::FAILURE })
}

/// Prints a difference.
fn tell(difference: &Difference) {
    let name = called_by(&difference.line).map_or("no function", |function| function.name);
    println!("call      {}   ({name})", in_hex(&difference.line));
    println!("the Rust  {}", in_hex(&difference.rust));
    println!("program   {}", in_hex(&difference.program));
}

/// A line with all numbers but the first in hexadecimal; if it has another form, the line itself.
fn in_hex(line: &[u8]) -> String {
    let bytes = line.strip_suffix(b"\n").unwrap_or(line);
    let numbers: Option<Vec<u32>> = bytes.split(|&byte| byte == b' ').map(decimal::read).collect();
    let mut text = match numbers.as_deref() {
        Some([first, rest @ ..]) if line.len() > bytes.len() => {
            rest.iter().fold(first.to_string(), |text, n| format!("{text} {n:08x}"))
        }
        _ => format!("\"{}\"", line.escape_ascii()),
    };
    text.truncate(WIDTH);
    text
}
