//! The plain sheet behind a stream of bytes: takes the input in pieces of any size, and answers each line.

use super::lines::{read, read_whole, write_answer, LINE};
use super::{Answer, Command, Refusal, Sheet};

#[derive(Default)]
pub struct Stream {
    sheet: Sheet,
    /// The bytes since the last line feed; of a long line the first 46, which are enough to refuse it.
    begun: Vec<u8>,
}

impl Stream {
    /// Takes the next bytes of the input, and appends the answers to the lines that end in them.
    pub fn feed(&mut self, mut bytes: &[u8], out: &mut Vec<u8>) {
        if !self.begun.is_empty() {
            match split_line(bytes) {
                Some((line, rest)) => {
                    self.keep(line);
                    let command = read(&self.begun);
                    self.begun.clear();
                    self.answer(command, out);
                    bytes = rest;
                }
                None => return self.keep(bytes),
            }
        }
        loop {
            // Most lines have 45 bytes: a line feed at its place, and no other before it if the fields are well formed.
            while let Some((line, rest)) = bytes.split_first_chunk::<{ LINE + 1 }>() {
                let (line, end) = line.split_first_chunk::<LINE>().expect("it is shorter");
                let Some(command) = read_whole(line).filter(|_| *end == *b"\n") else { break };
                self.answer(Some(command), out);
                bytes = rest;
            }
            let Some((line, rest)) = split_line(bytes) else { break };
            self.answer(read(line), out);
            bytes = rest;
        }
        self.keep(bytes);
    }

    /// Takes the end of the input: bytes after the last line feed are a line too, refused by 1.
    pub fn end(&mut self, out: &mut Vec<u8>) {
        if !self.begun.is_empty() {
            self.answer(None, out);
            self.begun.clear();
        }
    }

    /// Answers the command of a line, or refuses a line that has none.
    #[inline]
    fn answer(&mut self, command: Option<Command>, out: &mut Vec<u8>) {
        let answer = match command {
            Some(command) => self.sheet.run(&command),
            None => Answer::refused(Refusal::Form),
        };
        write_answer(&answer, out);
    }

    fn keep(&mut self, bytes: &[u8]) {
        let room = LINE + 1 - self.begun.len();
        self.begun.extend_from_slice(&bytes[..bytes.len().min(room)]);
    }
}

/// The first line, without its line feed, and the bytes behind it.
fn split_line(bytes: &[u8]) -> Option<(&[u8], &[u8])> {
    let end = bytes.iter().position(|&byte| byte == b'\n')?;
    Some((&bytes[..end], &bytes[end + 1..]))
}
