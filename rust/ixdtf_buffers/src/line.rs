// Made by tools/to_rust.py of crates/ixdtf_buffers/src/line.rt. Do not edit.

//! A buffer for the line that is being read.

/// The bytes of a line that were read so far. If there are more than `LIMIT` bytes, the buffer only knows that the line is
/// too long.
pub struct Line<const LIMIT: usize> {
    bytes: [u8; LIMIT],
    count: usize,
    is_too_long: bool,
}

impl<const LIMIT: usize> Line<LIMIT> {
    /// Creates an empty line.
    pub fn new() -> Line<LIMIT> {
        Line {
            bytes: [0; LIMIT],
            count: 0,
            is_too_long: false,
        }
    }

    /// Makes the line empty, so that a new line can begin.
    pub fn clear(&mut self) {
        self.count = 0;
        self.is_too_long = false;
    }

    /// Appends the bytes to the line.
    pub fn push_all(&mut self, bytes: &[u8]) {
        if bytes.len() > LIMIT - self.count {
            self.is_too_long = true;
            return;
        }
        let start = self.count;
        let end = start + bytes.len();
        let room = &mut self.bytes[..];
        room[start..end].copy_from_slice(bytes);
        self.count = end;
    }

    /// Returns whether the line has no bytes so far.
    pub fn is_empty(&self) -> bool {
        self.count == 0 && !self.is_too_long
    }

    /// Returns the bytes of the line, or `None` if the line is too long.
    pub fn as_slice(&self) -> Option<&[u8]> {
        if self.is_too_long {
            None
        } else {
            Some(&self.bytes[..self.count])
        }
    }
}
