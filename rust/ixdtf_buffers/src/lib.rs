// Made by tools/to_rust.py of crates/ixdtf_buffers/src/lib.rt. Do not edit.

//! Code that the two programs `ixdtf_check` and `ixdtf_lines` share: the loop over lines, the buffers for input and output, the
//! search for a byte, and functions that write short texts and decimal numbers into arrays.
//!
//! A *run* is one call of [`drive`](crate::driver::drive). It reads a *source* line by line, and passes each line to a
//! *task*. The task writes its results to an *output*, which is a buffer in front of a *sink*.
//!
//! Nothing in this crate allocates, because each buffer is an array of fixed size. The crate uses only the standard library.

#![forbid(unsafe_code)]

pub mod adding;
pub mod driver;
pub mod error;
pub mod line;
pub mod output;
pub mod place;
pub mod sink;
pub mod source;
mod waiting;
