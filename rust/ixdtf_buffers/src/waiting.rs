// Made by tools/to_rust.py of crates/ixdtf_buffers/src/waiting.rt. Do not edit.

//! A buffer for bytes that are not written yet.

/// The size of the buffer in bytes.
pub const WAITING_LIMIT: usize = 4096;

/// A buffer for bytes that are not written yet.
pub struct Waiting {
    bytes: [u8; WAITING_LIMIT],
    count: usize,
}

impl Waiting {
    /// Creates an empty buffer.
    pub fn new() -> Waiting {
        Waiting {
            bytes: [0; WAITING_LIMIT],
            count: 0,
        }
    }

    /// Returns how many more bytes fit into the buffer.
    pub fn room(&self) -> usize {
        WAITING_LIMIT - self.count
    }

    /// Appends the bytes to the buffer. They must fit into it.
    pub fn push_all(&mut self, bytes: &[u8]) {
        let end = self.count + bytes.len();
        self.bytes[self.count..end].copy_from_slice(bytes);
        self.count = end;
    }

    /// Returns the bytes in the buffer.
    pub fn as_slice(&self) -> &[u8] {
        &self.bytes[..self.count]
    }

    /// Removes the first `count` bytes from the buffer.
    pub fn drop_front(&mut self, count: usize) {
        self.bytes.copy_within(count..self.count, 0);
        self.count -= count;
    }
}
