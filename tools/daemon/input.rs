//! Frames read in bulk, from a client or from the server.

use crate::requests::Fault;
use std::io::{ErrorKind, Read, Result};

/// Bytes that are read at once.
const PIECE: usize = 128 << 10;

/// Input whose bytes are kept until they are consumed.
pub struct Input<R> {
    reader: R,
    buffer: Vec<u8>,
    start: usize,
    end: usize,
}

impl<R: Read> Input<R> {
    pub fn new(reader: R) -> Input<R> {
        Input { reader, buffer: vec![0; PIECE], start: 0, end: 0 }
    }

    /// The bytes that were read and not consumed.
    pub fn bytes(&self) -> &[u8] {
        &self.buffer[self.start..self.end]
    }

    pub fn consume(&mut self, count: usize) {
        self.start += count;
    }

    /// Reads more bytes after those that are not consumed. Returns false at the end of the input.
    pub fn fill(&mut self) -> Result<bool> {
        self.make_room();
        loop {
            match self.reader.read(&mut self.buffer[self.end..]) {
                Ok(count) => {
                    self.end += count;
                    return Ok(count > 0);
                }
                Err(error) if error.kind() == ErrorKind::Interrupted => {}
                Err(error) => return Err(error),
            }
        }
    }

    /// Reads until a whole frame is there. Returns its size with the length field, or `None` at the end of the
    /// input.
    pub fn fill_frame(&mut self, largest: u64) -> Result<std::result::Result<Option<usize>, Fault>> {
        loop {
            match Fault::or_size(self.bytes(), largest) {
                Ok(None) if self.fill()? => {}
                outcome => return Ok(outcome),
            }
        }
    }

    /// Moves the bytes to the front, and doubles the buffer if it is full. It shrinks when all is consumed.
    fn make_room(&mut self) {
        self.buffer.copy_within(self.start..self.end, 0);
        (self.start, self.end) = (0, self.end - self.start);
        if self.end == 0 {
            self.buffer.truncate(PIECE);
            self.buffer.shrink_to_fit();
        } else if self.end == self.buffer.len() {
            self.buffer.resize(2 * self.end, 0);
        }
    }
}
