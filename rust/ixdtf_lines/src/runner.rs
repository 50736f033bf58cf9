// Made by tools/to_rust.py of crates/ixdtf_answers/src/runner.rt. Do not edit.

//! Answers all lines of an input.

use crate::answer::{Answering, LINE_LIMIT};
use ixdtf_buffers::driver::drive;
use ixdtf_buffers::error::RunError;
use ixdtf_buffers::sink::Sink;
use ixdtf_buffers::source::Source;
use std::io::{Read, Write};

/// Answers each line that is read from `reader`, and writes the answers to `writer`.
pub fn run<R: Read, W: Write>(reader: &mut R, writer: &mut W) -> Result<(), RunError> {
    answer_lines(reader, writer)
}

/// Answers each line of the source, and writes the answers to the sink.
pub fn answer_lines<S: Source, K: Sink>(source: &mut S, sink: &mut K) -> Result<(), RunError> {
    drive::<S, K, Answering, LINE_LIMIT>(source, sink, &mut Answering::new()).end
}
