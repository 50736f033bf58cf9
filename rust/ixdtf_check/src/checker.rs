// Made by tools/to_rust.py of crates/ixdtf_checks/src/checker.rt. Do not edit.

//! Checks all lines of an input.

use crate::checking::Checking;
use crate::printed_line::PrintedText;
use crate::report_room::ReportRoom;
use crate::request::Request;
use crate::second_output::SecondOutput;
use crate::tally::Tally;
use crate::verdict::LINE_LIMIT;
use ixdtf_buffers::driver::drive;
use ixdtf_buffers::error::RunError;
use ixdtf_buffers::output::Output;
use ixdtf_buffers::sink::Sink;
use ixdtf_buffers::source::Source;
use std::io::{Read, Write};

/// The result of a check: the counts, and how it ended.
#[derive(Clone, Copy, Debug, PartialEq)]
pub struct Checked {
    /// The number of lines, of refused lines, and of bytes.
    pub tally: Tally,
    /// `Ok` if the complete input was read and all reports were written. Otherwise the error that ended the check.
    pub end: Result<(), RunError>,
}

/// Checks each line that is read from `reader`. Writes the reports to `writer`. If the task of the request is [`Task::Print`],
/// writes the canonical texts to `writer`, and the reports to `reports`.
///
/// [`Task::Print`]: crate::request::Task::Print
pub fn check<R: Read, W: Write, E: Write>(
    reader: &mut R,
    writer: &mut W,
    reports: &mut E,
    request: &Request<'_>,
) -> Checked {
    check_lines(reader, writer, reports, request)
}

/// Checks each line of the source. Writes the reports to `sink`. If the task of the request is [`Task::Print`], writes the canonical
/// texts to `sink`, and the reports to `reports`.
///
/// [`Task::Print`]: crate::request::Task::Print
pub fn check_lines<S: Source, K: Sink, E: Sink>(
    source: &mut S,
    sink: &mut K,
    reports: &mut E,
    request: &Request<'_>,
) -> Checked {
    let mut checking = Checking {
        request: *request,
        printed: PrintedText::empty(),
        room: ReportRoom::new(),
        unquoted: [0; LINE_LIMIT],
        last: None,
        tally: Tally::new(),
        second: SecondOutput {
            output: Output::new(reports),
            has_failed: false,
        },
    };
    let end = check_all(source, sink, &mut checking);
    Checked {
        tally: checking.tally,
        end,
    }
}

/// Does the work of `check_lines`. The values in `checking` must be those before the first line.
fn check_all<S: Source, K: Sink, E: Sink>(
    source: &mut S,
    sink: &mut K,
    checking: &mut Checking<'_, '_, E>,
) -> Result<(), RunError> {
    let driven = drive::<S, K, Checking<'_, '_, E>, LINE_LIMIT>(source, sink, checking);
    checking.tally.bytes = driven.bytes;
    checking.second.finish(driven.end)
}
