//! A short digest of many bytes, by which two runs of a comparison are held against each other: FNV-1a of 64 bits.

use std::fmt;

const START: u64 = 0xcbf2_9ce4_8422_2325;
const FACTOR: u64 = 0x0000_0100_0000_01b3;

pub struct Digest(u64);

impl Default for Digest {
    fn default() -> Digest {
        Digest(START)
    }
}

impl Digest {
    pub fn take(&mut self, bytes: &[u8]) {
        self.0 = bytes.iter().fold(self.0, |digest, &byte| (digest ^ u64::from(byte)).wrapping_mul(FACTOR));
    }

    /// Takes the bytes of each word, the lowest first.
    pub fn take_words(&mut self, words: &[u32]) {
        words.iter().for_each(|word| self.take(&word.to_le_bytes()));
    }
}

impl fmt::Display for Digest {
    fn fmt(&self, f: &mut fmt::Formatter) -> fmt::Result {
        write!(f, "{:016x}", self.0)
    }
}

#[cfg(test)]
mod tests {
    use super::*;

    fn of(bytes: &[u8]) -> String {
        let mut digest = Digest::default();
        digest.take(bytes);
        digest.to_string()
    }

    /// The digests that the authors of FNV give.
    #[test]
    fn known_digests() {
        assert_eq!(of(b""), "cbf29ce484222325");
        assert_eq!(of(b"a"), "af63dc4c8601ec8c");
        assert_eq!(of(b"foobar"), "85944171f73967e8");
    }

    #[test]
    fn words_are_taken_byte_by_byte() {
        let mut digest = Digest::default();
        digest.take_words(&[u32::from_le_bytes(*b"foob"), u32::from_le_bytes(*b"ar\0\0")]);
        assert_eq!(digest.to_string(), of(b"foobar\0\0"));
    }
}
