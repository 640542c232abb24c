//! The lines of a listing, written into the caller's buffer.

use std::fmt::Write;

use super::cluster::Answer;
use super::fault::Stop;

pub struct Listing<'a> {
    buffer: &'a mut [u8],
    written: usize,
    lines: usize,
    line: String,
}

impl<'a> Listing<'a> {
    pub fn new(buffer: &'a mut [u8]) -> Self {
        Listing { buffer, written: 0, lines: 0, line: String::new() }
    }

    pub fn capacity(&self) -> usize {
        self.buffer.len()
    }

    pub fn written(&self) -> usize {
        self.written
    }

    /// Writes a line whole, or stops and writes none of it.
    pub fn add(&mut self, letter: char, answer: Answer) -> Result<(), Stop> {
        self.line.clear();
        let number = self.lines + 1;
        let formatted = match answer {
            Ok(answer) => writeln!(self.line, "{number} {letter} 0 {answer}"),
            Err(refusal) => writeln!(self.line, "{number} {letter} {} 0", refusal as u64),
        };
        formatted.expect("a String takes everything");
        let end = self.written + self.line.len();
        let place = self.buffer.get_mut(self.written..end).ok_or(Stop::ListingFull)?;
        place.copy_from_slice(self.line.as_bytes());
        self.written = end;
        self.lines = number;
        Ok(())
    }
}
