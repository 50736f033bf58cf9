// Made by tools/to_rust.py of crates/ixdtf_buffers/src/sink.rt. Do not edit.

//! The sinks to which a run writes.

use crate::error::RunError;
use std::io::{ErrorKind, Write};

/// A sink to which a run writes: any `Write`, or a sink in memory.
pub trait Sink {
    /// Writes a prefix of the bytes, and returns its length. The prefix is empty only if there are no bytes.
    ///
    /// Returns `RunError::Write` if the write fails.
    fn write_some(&mut self, bytes: &[u8]) -> Result<usize, RunError>;

    /// Flushes the bytes that were written. Returns `RunError::Write` if the flush fails.
    fn flush_all(&mut self) -> Result<(), RunError>;
}

impl<W: Write> Sink for W {
    /// If a signal interrupts a write, the write is tried again.
    fn write_some(&mut self, bytes: &[u8]) -> Result<usize, RunError> {
        for _ in 0..u64::MAX {
            match self.write(bytes) {
                Ok(count) if count > 0 || bytes.is_empty() => return Ok(count),
                Err(error) if error.kind() == ErrorKind::Interrupted => {}
                Ok(_) | Err(_) => return Err(RunError::Write),
            }
        }
        Err(RunError::Write)
    }

    fn flush_all(&mut self) -> Result<(), RunError> {
        match self.flush() {
            Ok(()) => Ok(()),
            Err(_) => Err(RunError::Write),
        }
    }
}
