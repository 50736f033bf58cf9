// Made by tools/to_rust.py of crates/ixdtf_print/src/error.rt. Do not edit.

//! The errors of the printer.

use core::error::Error;
use core::fmt;

/// The reason why [`print`](crate::print), or another function that prints, wrote nothing.
///
/// `Display` writes a message.
///
/// # Examples
///
/// ```rust
/// use ixdtf_print::PrintError;
///
/// assert_eq!(PrintError::NotPrintable.to_string(), "No text stands for the record.");
/// assert_eq!(PrintError::TooShort.to_string(), "There is less room than the text takes.");
/// ```
#[derive(Clone, Copy, Debug, PartialEq)]
pub enum PrintError {
    /// The record has no canonical text. For [`print`](crate::print), there are three kinds of such records: a record
    /// without a date, a record with an offset but without a time, and a record with a value that `parse` never returns,
    /// such as the month 13 or February 30. The documentation of every function that prints says which records have no
    /// canonical text.
    NotPrintable,
    /// The canonical text of the record is longer than the slice. For [`print`](crate::print), the function
    /// [`printed_length`](crate::printed_length) returns the length of the canonical text. If `parse` returned the
    /// record, the canonical text has at most 14 bytes more than the text that was parsed. Each other kind of record
    /// has its own function for the length, such as [`time_length`](crate::time_length). The documentation of a
    /// printing function, such as [`print_time`](crate::print_time), says how many bytes more the canonical text can
    /// have.
    TooShort,
}

// `Display` ignores width and fill.
impl fmt::Display for PrintError {
    fn fmt(&self, f: &mut fmt::Formatter<'_>) -> fmt::Result {
        f.write_str(message_of(*self))
    }
}

impl Error for PrintError {}

/// Returns the message of the error.
fn message_of(error: PrintError) -> &'static str {
    match error {
        PrintError::NotPrintable => "No text stands for the record.",
        PrintError::TooShort => "There is less room than the text takes.",
    }
}
