//! Command lines and answer lines: 45 bytes and a line feed, 42 bytes and a line feed.

use super::{Answer, Command};

/// The bytes of a command line before its line feed.
pub const LINE: usize = 45;

/// The bytes of an answer line with its line feed.
pub const ANSWER: usize = 43;

/// The columns of a number or a row, and of a value.
const NARROW: usize = 3;
const WIDE: usize = 11;

/// The command of a line, which stands here without its line feed. None if it has not 45 bytes or a field is ill formed.
pub fn read(line: &[u8]) -> Option<Command> {
    read_whole(line.try_into().ok()?)
}

/// The command of 45 bytes.
#[inline]
pub fn read_whole(line: &[u8; LINE]) -> Option<Command> {
    Some(Command {
        number: field::<0, NARROW>(line)?,
        t: field::<3, NARROW>(line)?,
        a: field::<6, NARROW>(line)?,
        b: field::<9, NARROW>(line)?,
        values: [field::<12, WIDE>(line)?, field::<23, WIDE>(line)?, field::<34, WIDE>(line)?],
    })
}

/// The number of a field: blanks, then at least one digit up to its right edge, no leading zero but in 0 alone.
#[inline(always)]
fn field<const START: usize, const WIDTH: usize>(line: &[u8; LINE]) -> Option<u32> {
    let columns = &line[START..START + WIDTH];
    let first = columns.iter().position(|&byte| byte != b' ')?;
    let digits = &columns[first..];
    if digits[0] == b'0' && digits.len() > 1 {
        return None;
    }
    let mut n: u64 = 0;
    for &byte in digits {
        let digit = byte.wrapping_sub(b'0');
        if digit > 9 {
            return None;
        }
        n = n * 10 + u64::from(digit);
    }
    u32::try_from(n).ok()
}

/// Appends the line of an answer.
#[inline]
pub fn write_answer(answer: &Answer, out: &mut Vec<u8>) {
    let mut line = [b' '; ANSWER];
    put(&mut line[..3], answer.refusal);
    put(&mut line[3..6], answer.row);
    put(&mut line[6..9], answer.kind);
    put(&mut line[9..20], answer.values[0]);
    put(&mut line[20..31], answer.values[1]);
    put(&mut line[31..42], answer.values[2]);
    line[42] = b'\n';
    out.extend_from_slice(&line);
}

/// Appends the line of a command whose number and rows are at most 999.
pub fn write_command(command: &Command, out: &mut Vec<u8>) {
    let mut line = [b' '; LINE + 1];
    put(&mut line[..3], command.number);
    put(&mut line[3..6], command.t);
    put(&mut line[6..9], command.a);
    put(&mut line[9..12], command.b);
    put(&mut line[12..23], command.values[0]);
    put(&mut line[23..34], command.values[1]);
    put(&mut line[34..45], command.values[2]);
    line[45] = b'\n';
    out.extend_from_slice(&line);
}

/// Writes a number to the right edge of its columns, which hold blanks: two digits at a time.
#[inline]
fn put(columns: &mut [u8], mut n: u32) {
    let mut end = columns.len();
    while n >= 100 {
        columns[end - 2..end].copy_from_slice(&PAIRS[(n % 100) as usize]);
        n /= 100;
        end -= 2;
    }
    if n >= 10 {
        columns[end - 2..end].copy_from_slice(&PAIRS[n as usize]);
    } else {
        columns[end - 1] = b'0' + n as u8;
    }
}

/// The numbers 0 to 99 in two digits.
static PAIRS: [[u8; 2]; 100] = pairs();

const fn pairs() -> [[u8; 2]; 100] {
    let mut pairs = [[b'0'; 2]; 100];
    let mut n = 0;
    while n < 100 {
        pairs[n] = [b'0' + (n / 10) as u8, b'0' + (n % 10) as u8];
        n += 1;
    }
    pairs
}
