// Made by tools/to_rust.py of crates/ixdtf_buffers/src/driver.rt. Do not edit.

//! The loop that reads a source line by line, and passes each line to a task.

use crate::error::RunError;
use crate::line::Line;
use crate::output::Output;
use crate::place::place_of;
use crate::sink::Sink;
use crate::source::Source;

/// A task that handles lines of at most `LIMIT` bytes. For each longer line, the task gets `None` instead of the bytes.
pub trait LineTask<const LIMIT: usize> {
    /// Handles one line, and writes its result to the output. `line` is `None` if the line has more than `LIMIT` bytes.
    ///
    /// Returns `RunError::Write` if a write fails. This can be a write to the output, or a write to another place to which the task
    /// writes.
    fn take_line<K: Sink>(
        &mut self,
        output: &mut Output<'_, K>,
        line: Option<&[u8]>,
    ) -> Result<(), RunError>;
}

/// How a run over the lines of a source ended.
#[derive(Clone, Copy, Debug, PartialEq)]
pub struct Driven {
    /// The number of bytes that were read.
    pub bytes: u64,
    /// `Ok` if all bytes were read, all results were written, and the sink was flushed. Otherwise the error that ended the run.
    pub end: Result<(), RunError>,
}

/// Reads the source up to its end or an error, and passes each line to the task. The task writes its results to an output, which is
/// a buffer in front of the sink.
///
/// A newline ends a line. If bytes follow the last newline, they are the last line. A source without a newline is one line,
/// unless it is empty.
///
/// Before each read, the function writes what is in the buffer to the sink. At the end of the source, it does this again, and then
/// it flushes the sink. If a read fails, the sink is not flushed, and bytes after the last newline are not passed to the task.
///
/// A read asks for at most `LIMIT` bytes. Before each read, the function tests whether the sum of `LIMIT` and the number of bytes that
/// were read so far is greater than `u64::MAX`. If so, it does not read, and ends as if a read had failed: [`Driven::end`] is
/// `Err(RunError::Read)`.
pub fn drive<S: Source, K: Sink, T: LineTask<LIMIT>, const LIMIT: usize>(
    source: &mut S,
    sink: &mut K,
    task: &mut T,
) -> Driven {
    let mut output = Output::new(sink);
    let mut bytes = 0;
    let end = drive_all(source, &mut output, task, &mut bytes);
    Driven { bytes, end }
}

/// Does the work of `drive`. The buffer of the output must be empty when the function is called. Increases `bytes` by the number of
/// bytes that the function reads.
fn drive_all<S: Source, K: Sink, T: LineTask<LIMIT>, const LIMIT: usize>(
    source: &mut S,
    output: &mut Output<'_, K>,
    task: &mut T,
    bytes: &mut u64,
) -> Result<(), RunError> {
    let mut line = Line::new();
    let mut input = [0; LIMIT];
    // The buffer of the output is empty before each read.
    'reads: while *bytes <= u64::MAX - LIMIT as u64 {
        let count = source.read_some(&mut input)?;
        if count == 0 {
            return finish(output, task, &line);
        }
        *bytes += count as u64;
        take_bytes(output, task, &mut line, &input[..count])?;
    }
    Err(RunError::Read)
}

/// Handles the bytes of one read. Passes to the task each line that ends in these bytes, and appends the bytes after the last
/// newline to `line`. Then writes the buffered results to the sink.
fn take_bytes<K: Sink, T: LineTask<LIMIT>, const LIMIT: usize>(
    output: &mut Output<'_, K>,
    task: &mut T,
    line: &mut Line<LIMIT>,
    bytes: &[u8],
) -> Result<(), RunError> {
    let mut rest = bytes;
    'lines: while let Some(place) = place_of(b'\n', rest) {
        end_line(output, task, line, &rest[..place])?;
        rest = &rest[place + 1..];
    }
    line.push_all(rest);
    output.hand_on()
}

/// Passes a line to the task, and begins the next line. `bytes` are the last bytes of the line.
///
/// If the line began in this read, `bytes` is the complete line, and is passed on without a copy.
#[inline(always)]
fn end_line<K: Sink, T: LineTask<LIMIT>, const LIMIT: usize>(
    output: &mut Output<'_, K>,
    task: &mut T,
    line: &mut Line<LIMIT>,
    bytes: &[u8],
) -> Result<(), RunError> {
    if line.is_empty() {
        return task.take_line(output, Some(bytes));
    }
    end_kept_line(output, task, line, bytes)
}

/// Does the work of `end_line` for a line whose first bytes are kept, or that is too long.
///
/// The function is not inlined, because it is called rarely: at most once for each read.
#[inline(never)]
fn end_kept_line<K: Sink, T: LineTask<LIMIT>, const LIMIT: usize>(
    output: &mut Output<'_, K>,
    task: &mut T,
    line: &mut Line<LIMIT>,
    bytes: &[u8],
) -> Result<(), RunError> {
    line.push_all(bytes);
    let result = task.take_line(output, line.as_slice());
    line.clear();
    result
}

/// Passes the bytes after the last newline to the task as the last line, unless there are none. Then writes the results to the
/// sink, and flushes the sink.
fn finish<K: Sink, T: LineTask<LIMIT>, const LIMIT: usize>(
    output: &mut Output<'_, K>,
    task: &mut T,
    line: &Line<LIMIT>,
) -> Result<(), RunError> {
    if line.is_empty() {
        return output.finish();
    }
    task.take_line(output, line.as_slice())?;
    output.finish()
}
