//! Document 01's plain sheet as a program: command lines from standard input, answer lines to standard output.

use compare::sheet::stream::Stream;
use std::io::{self, Read, Write};

/// How many bytes are read at once.
const PIECE: usize = 1 << 16;

fn main() -> io::Result<()> {
    let (mut input, mut output) = (io::stdin().lock(), io::stdout().lock());
    let mut stream = Stream::default();
    let mut bytes = vec![0; PIECE];
    let mut answers = Vec::with_capacity(PIECE);
    loop {
        let count = input.read(&mut bytes)?;
        if count == 0 {
            break;
        }
        stream.feed(&bytes[..count], &mut answers);
        output.write_all(&answers)?;
        answers.clear();
    }
    stream.end(&mut answers);
    output.write_all(&answers)?;
    output.flush()
}
