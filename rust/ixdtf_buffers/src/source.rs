// Made by tools/to_rust.py of crates/ixdtf_buffers/src/source.rt. Do not edit.

//! The sources from which a run reads.

use crate::error::RunError;
use std::io::{ErrorKind, Read};

/// A source from which a run reads: any `Read`, or bytes in memory.
pub trait Source {
    /// Reads bytes into the beginning of `input`, and returns their number. This number is 0 only at the end of the source, or if
    /// `input` is empty.
    ///
    /// Returns `RunError::Read` if the read fails.
    fn read_some(&mut self, input: &mut [u8]) -> Result<usize, RunError>;
}

impl<R: Read> Source for R {
    /// If a signal interrupts a read, the read is tried again.
    fn read_some(&mut self, input: &mut [u8]) -> Result<usize, RunError> {
        for _ in 0..u64::MAX {
            match self.read(input) {
                Ok(count) => return Ok(count),
                Err(error) if error.kind() == ErrorKind::Interrupted => {}
                Err(_) => return Err(RunError::Read),
            }
        }
        Err(RunError::Read)
    }
}
