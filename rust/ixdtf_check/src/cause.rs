// Made by tools/to_rust.py of crates/ixdtf_checks/src/cause.rt. Do not edit.

//! Why a line is refused.
//!
//! If a line is refused, its verdict contains only the cause. The contents of a report are made from the cause when the report is
//! written. For this reason, few bytes are copied from one function to another. If a report is not written, nothing is made for it.

use crate::csv::Quoting;
use crate::line_part::Part;
use ixdtf::{Instant, LocatedReason};

/// Why a line is refused.
#[derive(Clone, Copy)]
pub enum Cause<'a> {
    /// The line is longer than `LINE_LIMIT`.
    TooLong,
    /// The line has too few fields. The value is the column after the last byte of the line, counted in bytes from 1.
    NoField(usize),
    /// The line is no record of RFC 4180. The number is the column of the byte that is wrong.
    Broken(Quoting, usize),
    /// The text names no instant.
    Untimed(WholeText<'a>),
    /// The text names this instant, which is before the previous instant. The previous instant is that of the nearest preceding
    /// line whose text names an instant.
    Early(Instant, WholeText<'a>),
    /// A reader refuses the text.
    Unread(Unread<'a>),
}

/// A text that a reader accepts, but that the task `Task::Order` refuses. It is refused as a whole: no part of it is wrong on its own.
#[derive(Clone, Copy)]
pub struct WholeText<'a> {
    /// The column of the first byte of the text.
    pub column: usize,
    /// The text. It can be invalid UTF-8.
    pub text: &'a [u8],
}

/// A text that a reader refuses.
#[derive(Clone, Copy)]
pub struct Unread<'a> {
    /// Whether the kind of text that the reader parses can have an offset after the time.
    pub has_offset: bool,
    /// The reason of the error that the reader returned, and the position of this error.
    pub error: LocatedReason,
    /// The part of the line that is the text.
    pub part: Part<'a>,
}

impl Unread<'_> {
    /// Converts an index in the text into a column of the line. The column is counted in bytes, from 1.
    #[inline(always)]
    pub fn column_of(&self, index: usize) -> usize {
        self.part.start + self.part.width_of(index) + 1
    }
}
