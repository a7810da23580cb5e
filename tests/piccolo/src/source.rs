//! A stream of words as something to `Read`: the parser asks for a reader, and bytes are the
//! plainest way to bring words through one.

use std::io::{self, Read};

pub struct Words<'a> {
    words: &'a [u64],
}

impl<'a> Words<'a> {
    pub fn new(words: &'a [u64]) -> Self {
        Words { words }
    }
}

impl Read for Words<'_> {
    /// Gives whole words, little-endian; the lexer asks for a record at a time.
    fn read(&mut self, buffer: &mut [u8]) -> io::Result<usize> {
        let mut given = 0;
        for bytes in buffer.chunks_exact_mut(8) {
            let Some((word, rest)) = self.words.split_first() else {
                break;
            };
            bytes.copy_from_slice(&word.to_le_bytes());
            self.words = rest;
            given += 8;
        }
        Ok(given)
    }
}
