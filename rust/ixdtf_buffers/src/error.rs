// Made by tools/to_rust.py of crates/ixdtf_buffers/src/error.rt. Do not edit.

//! The errors that end a run. A *run* is one call of `drive`, which reads a source and writes to a sink. A run without an
//! error reads the source to its end.

/// The error that ended a run.
#[derive(Clone, Copy, Debug, PartialEq)]
pub enum RunError {
    /// A read returned an error. Or the run stopped before a read, because the total number of bytes that were read could have
    /// become greater than `u64::MAX`.
    Read = 1,
    /// A write or a flush returned an error, or a write accepted no bytes.
    Write = 2,
}
