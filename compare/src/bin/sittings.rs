//! Writes the command lines of a sitting to standard output.

use compare::sitting::{stored, Sitting};
use std::env;
use std::error::Error;
use std::io::{self, Write};

const USAGE: &str = "usage:
  sittings SEED LINES    LINES command lines by the seed, one in 16 of them malformed
  sittings SEED LINES N  one in N of them malformed; none if N is 0
  sittings --ordinary SEED LINES
                         none malformed, and as many 33 as someone needs who mistypes now and then: to be timed
  sittings --stored      the stored sitting";

const MALFORMED: u32 = 16;

fn main() -> Result<(), Box<dyn Error>> {
    let words: Vec<String> = env::args().skip(1).collect();
    let words: Vec<&str> = words.iter().map(String::as_str).collect();
    match words[..] {
        ["--stored"] => Ok(io::stdout().write_all(&stored::stored())?),
        ["--ordinary", seed, lines] => write(Sitting::ordinary(seed.parse()?), lines.parse()?),
        [seed, lines] => write(Sitting::new(seed.parse()?, MALFORMED), lines.parse()?),
        [seed, lines, malformed] => write(Sitting::new(seed.parse()?, malformed.parse()?), lines.parse()?),
        _ => Err(USAGE.into()),
    }
}

fn write(sitting: Sitting, count: u64) -> Result<(), Box<dyn Error>> {
    let mut output = io::stdout().lock();
    for piece in sitting.pieces(count) {
        output.write_all(&piece)?;
    }
    Ok(())
}
