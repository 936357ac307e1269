//! The lines of the input, handed out where they stand in one buffer.

use std::io::{self, ErrorKind, Read};

/// The bytes asked for at once. A longer line makes the buffer grow.
const SIZE: usize = 131_072;

pub struct Lines<R> {
    input: R,
    buffer: Vec<u8>,
    /// Where the bytes that were read and not handed out start and end.
    start: usize,
    end: usize,
}

impl<R: Read> Lines<R> {
    pub fn of(input: R) -> Self {
        Self {
            input,
            buffer: vec![0; SIZE],
            start: 0,
            end: 0,
        }
    }

    /// The next line, without the byte 0a that ends it, unless the input is at its end.
    pub fn next(&mut self) -> io::Result<Option<&[u8]>> {
        // How many of the waiting bytes are known not to end the line.
        let mut seen = 0;
        loop {
            let waiting = &self.buffer[self.start..self.end];
            if let Some(at) = find(b'\n', &waiting[seen..]) {
                let line = self.start..self.start + seen + at;
                self.start = line.end + 1;
                return Ok(Some(&self.buffer[line]));
            }
            seen = waiting.len();
            if !self.fill()? {
                let line = self.start..self.end;
                self.start = self.end;
                return Ok((!line.is_empty()).then(|| &self.buffer[line]));
            }
        }
    }

    /// Moves what waits to the front and reads more behind it, unless the input is at its end.
    fn fill(&mut self) -> io::Result<bool> {
        if self.start > 0 {
            self.buffer.copy_within(self.start..self.end, 0);
            (self.start, self.end) = (0, self.end - self.start);
        }
        if self.end == self.buffer.len() {
            self.buffer.resize(2 * self.end, 0);
        }
        loop {
            match self.input.read(&mut self.buffer[self.end..]) {
                Err(error) if error.kind() == ErrorKind::Interrupted => {}
                read => {
                    let count = read?;
                    self.end += count;
                    return Ok(count > 0);
                }
            }
        }
    }
}

/// Where the byte first stands. Blocks of 32 that lack it are passed as wholes, with no way out of
/// them, which the compiler turns into a few instructions; then words of 8.
fn find(byte: u8, bytes: &[u8]) -> Option<usize> {
    let lacks = |block: &&[u8; 32]| !block.iter().fold(false, |has, &one| has | (one == byte));
    let mut clear = 32 * bytes.as_chunks().0.iter().take_while(lacks).count();
    for &word in bytes[clear..].as_chunks().0 {
        let place = place(byte, word);
        clear += place;
        if place < 8 {
            return Some(clear);
        }
    }
    let at = bytes[clear..].iter().position(|&one| one == byte)?;
    Some(clear + at)
}

/// The byte's first place in a word, or 8. The lowest of the top bits that come out set is that of
/// the first byte that the xor makes 0.
fn place(byte: u8, word: [u8; 8]) -> usize {
    let each = |byte| u64::from_le_bytes([byte; 8]);
    let word = u64::from_le_bytes(word) ^ each(byte);
    let tops = word.wrapping_sub(each(1)) & !word & each(128);
    tops.trailing_zeros() as usize / 8
}
