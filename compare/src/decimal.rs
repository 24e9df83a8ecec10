//! Decimal numbers of call and answer lines.

/// The number that a field says: digits without a spare leading zero, a value that fits 32 bits.
pub fn read(field: &[u8]) -> Option<u32> {
    if field.is_empty() || field.len() > 10 || (field[0] == b'0' && field.len() > 1) {
        return None;
    }
    let mut n: u64 = 0;
    for &byte in field {
        if !byte.is_ascii_digit() {
            return None;
        }
        n = n * 10 + u64::from(byte - b'0');
    }
    u32::try_from(n).ok()
}

/// Appends the number.
pub fn write(out: &mut Vec<u8>, mut n: u32) {
    let mut digits = [0; 10];
    let mut start = digits.len();
    loop {
        start -= 1;
        digits[start] = b'0' + (n % 10) as u8;
        n /= 10;
        if n == 0 {
            break;
        }
    }
    out.extend_from_slice(&digits[start..]);
}
