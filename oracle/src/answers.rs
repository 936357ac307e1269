//! The text of the answers, gathered in one buffer and written out in large pieces.

use std::fmt;
use std::io::{self, Write};

/// How much is gathered before it is written out.
const PIECE: usize = 65_536;

/// More than the longest answer has: the digits of 65,536 bytes, and a few words beside them.
const LONGEST: usize = 2 * 65_536 + 256;

pub struct Answers<W: Write> {
    output: W,
    text: Box<[u8]>,
    /// Where the text ends, and where its last whole line does.
    end: usize,
    whole: usize,
}

impl<W: Write> Answers<W> {
    pub fn to(output: W) -> Self {
        Self {
            output,
            text: vec![0; PIECE + LONGEST].into(),
            end: 0,
            whole: 0,
        }
    }

    pub fn word(&mut self, word: &str) {
        self.room(word.len()).copy_from_slice(word.as_bytes());
    }

    /// A number in digits, the last one first, as the division gives them.
    pub fn number(&mut self, mut number: u64) {
        let length = number.checked_ilog10().unwrap_or(0) as usize + 1;
        for digit in self.room(length).iter_mut().rev() {
            *digit = b'0' + (number % 10) as u8;
            number /= 10;
        }
    }

    /// Two digits a byte.
    pub fn hex(&mut self, bytes: &[u8]) {
        let digit = |digit: u8| digit + if digit > 9 { b'a' - 10 } else { b'0' };
        let (pairs, _) = self.room(2 * bytes.len()).as_chunks_mut();
        for (pair, byte) in pairs.iter_mut().zip(bytes) {
            *pair = [digit(byte >> 4), digit(byte & 15)];
        }
    }

    /// What is rare, by the Rust's own printing.
    pub fn print(&mut self, text: fmt::Arguments) {
        fmt::write(self, text).expect("the text takes all");
    }

    /// Ends the line at hand.
    pub fn end_line(&mut self) -> io::Result<()> {
        self.word("\n");
        self.whole = self.end;
        if self.end < PIECE {
            return Ok(());
        }
        self.write_out()
    }

    /// Writes out the lines that are whole.
    pub fn write_out(&mut self) -> io::Result<()> {
        let whole = std::mem::take(&mut self.whole);
        self.end = 0;
        self.output.write_all(&self.text[..whole])
    }

    /// The next bytes of the text, to be filled.
    fn room(&mut self, length: usize) -> &mut [u8] {
        let start = self.end;
        self.end += length;
        &mut self.text[start..self.end]
    }
}

impl<W: Write> fmt::Write for Answers<W> {
    fn write_str(&mut self, text: &str) -> fmt::Result {
        self.word(text);
        Ok(())
    }
}

/// When a call panics, what was answered before is still written out.
impl<W: Write> Drop for Answers<W> {
    fn drop(&mut self) {
        // As for a BufWriter that is dropped, there is nobody to tell.
        let _ = self.write_out();
    }
}
