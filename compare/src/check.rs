//! Runs a program on lines and compares its answers with the Rust's, byte by byte.

use std::io::{self, BufRead, BufReader, Write};
use std::process::{Command, ExitStatus, Stdio};
use std::sync::mpsc::{sync_channel, Receiver};
use std::sync::Arc;
use std::thread;

/// How many pieces wait for the program at most.
const AHEAD: usize = 4;

/// How many differences are kept, and how many of one function or command.
const KEPT: usize = 20;
const KEPT_OF_ONE: usize = 2;

/// The Rust's side of a comparison.
pub trait Rust: Send {
    /// Appends the answers to whole lines; behind the last line feed stand bytes that end the input.
    fn answer_all(&mut self, lines: &[u8], out: &mut Vec<u8>);

    /// The number of the function or the command that a line calls.
    fn number(line: &[u8]) -> Option<u32>;

    /// Looks at lines with the answers to them, the Rust's and the program's.
    fn look_at(&mut self, _lines: &[u8], _rust: &[u8], _program: &[u8]) {}
}

/// A line, and the answers to it with their line feeds; an answer that the program did not give is empty.
pub struct Difference {
    pub line: Vec<u8>,
    pub rust: Vec<u8>,
    pub program: Vec<u8>,
}

#[derive(Default)]
pub struct Comparison {
    pub compared: u64,
    pub different: u64,
    /// The first differences.
    pub first: Vec<Difference>,
    /// How many bytes the program wrote behind its answers.
    pub spare: usize,
    /// How the program ended.
    pub ended: ExitStatus,
}

/// Compares the answers to pieces of the input, each of whole lines but for the last. The program gets each piece in parts of the
/// sizes that `sizes` gives in turn; the whole piece at once if it gives none.
pub fn compare<R: Rust>(
    program: &mut Command,
    rust: &mut R,
    pieces: impl Iterator<Item = Vec<u8>>,
    sizes: &'static [usize],
) -> io::Result<Comparison> {
    let mut child = program.stdin(Stdio::piped()).stdout(Stdio::piped()).spawn()?;
    let mut input = child.stdin.take().expect("it is a pipe");
    let output = child.stdout.take().expect("it is a pipe");
    let mut comparison = thread::scope(|scope| {
        let (to_write, written) = sync_channel::<Arc<Vec<u8>>>(AHEAD);
        let (to_check, checked) = sync_channel::<Arc<Vec<u8>>>(AHEAD);
        scope.spawn(move || {
            for piece in written {
                // a program that reads no more is found by its missing answers
                if write_parts(&mut input, &piece, sizes).is_err() {
                    break;
                }
            }
        });
        let checker = scope.spawn(move || check(rust, checked, BufReader::with_capacity(1 << 16, output)));
        for piece in pieces {
            let piece = Arc::new(piece);
            if to_check.send(piece.clone()).is_err() || to_write.send(piece).is_err() {
                break;
            }
        }
        drop((to_write, to_check));
        checker.join().expect("the checker does not panic")
    })?;
    comparison.ended = child.wait()?;
    Ok(comparison)
}

/// Writes bytes in parts of these sizes.
fn write_parts(output: &mut impl Write, mut bytes: &[u8], sizes: &[usize]) -> io::Result<()> {
    for &size in sizes.iter().cycle() {
        if bytes.is_empty() {
            break;
        }
        let (part, rest) = bytes.split_at(size.min(bytes.len()));
        output.write_all(part)?;
        bytes = rest;
    }
    output.write_all(bytes)
}

/// Reads the answers to the pieces, and compares them.
fn check<R: Rust>(rust: &mut R, pieces: Receiver<Arc<Vec<u8>>>, mut answers: impl BufRead) -> io::Result<Comparison> {
    let mut comparison = Comparison::default();
    let mut right = Vec::new();
    let mut program = Vec::new();
    for piece in pieces {
        right.clear();
        rust.answer_all(&piece, &mut right);
        let count = ends_in(&right);
        program.clear();
        take_lines(&mut answers, count, &mut program)?;
        comparison.compared += count as u64;
        if right != program {
            comparison.note(R::number, &piece, &right, &program);
        }
        rust.look_at(&piece, &right, &program);
    }
    comparison.spare = answers.read_to_end(&mut program)?;
    Ok(comparison)
}

impl Comparison {
    /// Prints how the program ended if that was not as it should be, and says whether all is equal.
    pub fn tell_end(&self) -> bool {
        if self.spare > 0 {
            println!("{} bytes behind the last answer", self.spare);
        }
        if !self.ended.success() {
            println!("the program ended with {}", self.ended);
        }
        self.different == 0 && self.spare == 0 && self.ended.success()
    }

    /// Counts the lines that are different, and keeps the first of them.
    fn note(&mut self, number: fn(&[u8]) -> Option<u32>, lines: &[u8], rust: &[u8], program: &[u8]) {
        let mut program = lines_of(program);
        for (line, rust) in lines_of(lines).zip(lines_of(rust)) {
            let program = program.next().unwrap_or_default();
            if rust == program {
                continue;
            }
            self.different += 1;
            let of_one = self.first.iter().filter(|kept| number(&kept.line) == number(line)).count();
            if self.first.len() < KEPT && of_one < KEPT_OF_ONE {
                self.first.push(Difference { line: line.to_vec(), rust: rust.to_vec(), program: program.to_vec() });
            }
        }
    }
}

/// The lines of the bytes, each with its line feed.
pub fn lines_of(bytes: &[u8]) -> impl Iterator<Item = &[u8]> {
    bytes.split_inclusive(|&byte| byte == b'\n')
}

/// How many lines end in the bytes.
fn ends_in(bytes: &[u8]) -> usize {
    bytes.iter().filter(|&&byte| byte == b'\n').count()
}

/// Appends the next `count` lines, or what there is of them.
fn take_lines(source: &mut impl BufRead, count: usize, out: &mut Vec<u8>) -> io::Result<()> {
    let mut missing = count;
    while missing > 0 {
        let held = source.fill_buf()?;
        if held.is_empty() {
            break;
        }
        let ends = ends_in(held).min(missing);
        let length = if ends < missing { held.len() } else { lines_of(held).take(ends).map(<[u8]>::len).sum() };
        out.extend_from_slice(&held[..length]);
        source.consume(length);
        missing -= ends;
    }
    Ok(())
}
