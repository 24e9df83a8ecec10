//! Malformed command lines of each kind, made from a well-formed one.

use crate::values::Draw;

/// Bytes that a spoiled line may have got: neighbours of the blank and of the digits, signs, letters, other white space.
const BYTES: &[u8] = b" 0123456789\t\r\0\x1f!/:-+.,ex\x0b\x0c\x7f\x80\xa0\xb2\xff";

/// Where the fields end.
const ENDS: [usize; 7] = [3, 6, 9, 12, 23, 34, 45];

/// How long a long line is, and how often a spoiled line is a long one.
const LONG: usize = 100_000;
const LONG_ONCE_IN: u32 = 4096;

/// A line of 45 bytes, spoiled by a mistake. It may have become another well-formed line.
pub fn spoiled(d: &mut Draw, line: &[u8]) -> Vec<u8> {
    if d.once_in(LONG_ONCE_IN) {
        return long(d, line);
    }
    let mut line = line.to_vec();
    let place = d.below(line.len() as u32) as usize;
    let byte = d.one_of(BYTES);
    let field = d.below(ENDS.len() as u32) as usize;
    match d.below(18) {
        0 => line.truncate(place),
        1 => line.clear(),
        2 => drop(line.pop()),
        3 => drop(line.remove(place)),
        4 => line.insert(place, byte),
        5 => line.push(byte),
        6 => line.push(b'\r'),
        7 => line.extend_from_within(..),
        8 => line[place] = byte,
        9 => replace(&mut line, b' ', d.one_of(b"\t\0\x0b\xa0+-0")),
        10 => *line.last_mut().expect("it is not empty") = d.one_of(b"\r\t\0 "),
        11 => zeros_before(d, &mut line, field),
        12 => {
            let number: &[u8] = d.one_of(&LARGE);
            put(&mut line, 4 + field % 3, number);
        }
        13 => put(&mut line, field, b""),
        14 => {
            let text: &[u8] =
                d.one_of(&[b"00", b"01", b"000", b"1 2", b"1 ", b"0 ", b" 0 ", b"-0", b"+1", b"1.", b"0x1", b"1e1"]);
            put(&mut line, field, text);
        }
        15 => line.rotate_left(1),
        16 => line.rotate_right(1),
        _ => line.swap(place, (place + 1) % 45),
    }
    line
}

/// Numbers at the end of what fits 32 bits and above it; the first is well formed.
const LARGE: [&[u8]; 8] =
    [b"4294967295", b"4294967296", b"4294967297", b"04294967295", b"5000000000", b"9999999999", b"10000000000", b"99999999999"];

/// A line of 100 KB: blanks, zeros, digits, or a good line again and again.
fn long(d: &mut Draw, line: &[u8]) -> Vec<u8> {
    match d.below(4) {
        0 => vec![b' '; LONG],
        1 => vec![b'0'; LONG],
        2 => (0..LONG).map(|_| d.one_of(b"0123456789 ")).collect(),
        _ => line.iter().copied().cycle().take(LONG + d.below(100) as usize).collect(),
    }
}

/// Puts another byte in the place of the first such one.
fn replace(line: &mut [u8], old: u8, new: u8) {
    if let Some(place) = line.iter().position(|&byte| byte == old) {
        line[place] = new;
    }
}

/// Writes a text to the right edge of a field, with blanks before it.
fn put(line: &mut [u8], field: usize, text: &[u8]) {
    let (start, end) = (if field == 0 { 0 } else { ENDS[field - 1] }, ENDS[field]);
    let columns = &mut line[start..end];
    columns.fill(b' ');
    let length = text.len().min(columns.len());
    columns[end - start - length..].copy_from_slice(&text[..length]);
}

/// Writes a zero, or zeros, before the number of a field, if it has room.
fn zeros_before(d: &mut Draw, line: &mut [u8], field: usize) {
    let start = if field == 0 { 0 } else { ENDS[field - 1] };
    let blanks = line[start..ENDS[field]].iter().take_while(|&&byte| byte == b' ').count();
    if blanks > 0 {
        let zeros = d.below(blanks as u32) as usize + 1;
        line[start + blanks - zeros..start + blanks].fill(b'0');
    }
}
