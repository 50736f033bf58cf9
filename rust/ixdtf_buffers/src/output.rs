// Made by tools/to_rust.py of crates/ixdtf_buffers/src/output.rt. Do not edit.

//! A sink with a buffer in front of it.

use crate::error::RunError;
use crate::sink::Sink;
use crate::waiting::{WAITING_LIMIT, Waiting};

/// The least number of bytes that are written to the sink when the buffer is full. This is half of the buffer. So after such a
/// write, at least half of the buffer is free again. Most of the next slices then fit into this free part, and few slices
/// have to be split into two parts.
const LEAST_WRITTEN: usize = 2048;

/// A sink, and a buffer for the bytes that are not written to it yet.
///
/// The buffer has a capacity of 4,096 bytes. The method [`put`](Output::put) appends a slice of bytes to it. If the slice has at
/// most 4,096 bytes, but does not fit into the free part of the buffer, `put` takes these steps:
///
/// 1. The first bytes of the slice fill the buffer.
/// 2. The first bytes in the buffer are written to the sink. At least 2,048 bytes are written, and more if the rest of the slice
///    needs more space. The other bytes stay in the buffer.
/// 3. The rest of the slice is appended to the buffer.
///
/// A slice of more than 4,096 bytes does not use the buffer. First, the bytes in the buffer are written to the sink. Then the slice
/// is written to the sink.
///
/// After the last slice, call `hand_on` or `finish`. Without this call, the bytes in the buffer are not written to the sink.
pub struct Output<'k, K> {
    sink: &'k mut K,
    waiting: Waiting,
}

impl<'k, K: Sink> Output<'k, K> {
    /// Creates an output to the sink. Its buffer is empty.
    pub fn new(sink: &'k mut K) -> Output<'k, K> {
        Output {
            sink,
            waiting: Waiting::new(),
        }
    }

    /// Appends the bytes to the output. If they fit into the free part of the buffer, the function copies them into it.
    /// Otherwise it writes bytes to the sink, as the documentation of `Output` says.
    ///
    /// Returns `RunError::Write` if a write fails.
    pub fn put(&mut self, bytes: &[u8]) -> Result<(), RunError> {
        if bytes.len() > self.waiting.room() {
            return self.put_after(bytes);
        }
        self.push(bytes);
        Ok(())
    }

    /// Does the work of `put` for bytes that do not fit into the buffer. The function is not inlined, because nearly all bytes fit.
    #[cold]
    #[inline(never)]
    fn put_after(&mut self, bytes: &[u8]) -> Result<(), RunError> {
        if bytes.len() <= WAITING_LIMIT {
            return self.fill_with(bytes);
        }
        self.hand_on()?;
        write_whole(self.sink, bytes)
    }

    /// Fills the buffer with the first bytes. Then writes at least 2,048 bytes of the buffer to the sink, and more if the other
    /// bytes need more space. Then appends the other bytes to the buffer.
    fn fill_with(&mut self, bytes: &[u8]) -> Result<(), RunError> {
        let (front, back) = bytes.split_at(self.waiting.room());
        self.push(front);
        self.write_out(back.len().max(LEAST_WRITTEN))?;
        self.push(back);
        Ok(())
    }

    /// Writes at least `least` bytes of the buffer to the sink, and removes all bytes that the sink accepted.
    fn write_out(&mut self, least: usize) -> Result<(), RunError> {
        let taken = write_least(self.sink, self.waiting.as_slice(), least)?;
        self.waiting.drop_front(taken);
        Ok(())
    }

    /// Appends the bytes to the buffer. They must fit into it.
    fn push(&mut self, bytes: &[u8]) {
        self.waiting.push_all(bytes);
    }

    /// Puts the slices into the output, in their order. Does the same as one call of [`put`](Output::put) for each slice.
    pub fn put_all(&mut self, pieces: &[&[u8]]) -> Result<(), RunError> {
        for piece in pieces {
            self.put(piece)?;
        }
        Ok(())
    }

    /// Writes all bytes of the buffer to the sink.
    pub fn hand_on(&mut self) -> Result<(), RunError> {
        let all = self.waiting.as_slice().len();
        self.write_out(all)
    }

    /// Writes all bytes of the buffer to the sink, and flushes the sink.
    pub fn finish(&mut self) -> Result<(), RunError> {
        self.hand_on()?;
        self.sink.flush_all()
    }
}

/// Writes all the bytes to the sink. If a write fails, a prefix of the bytes is in the sink.
fn write_whole<K: Sink>(sink: &mut K, bytes: &[u8]) -> Result<(), RunError> {
    write_least(sink, bytes, bytes.len())?;
    Ok(())
}

/// Writes at least `least` of the bytes to the sink, and returns how many bytes the sink accepted. If a write fails, a prefix of
/// the bytes is in the sink.
fn write_least<K: Sink>(sink: &mut K, bytes: &[u8], least: usize) -> Result<usize, RunError> {
    let mut rest = bytes;
    'writes: while bytes.len() - rest.len() < least {
        let count = sink.write_some(rest)?;
        rest = &rest[count..];
    }
    Ok(bytes.len() - rest.len())
}
