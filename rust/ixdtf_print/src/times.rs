// Made by tools/to_rust.py of crates/ixdtf_print/src/times.rt. Do not edit.

//! Times printed as their canonical texts.

use crate::check::{has_brackets, has_time};
use crate::digits::{put_fraction, put_two};
use crate::error::PrintError;
use crate::fields::{put_minutes, put_offset};
use crate::length::{fraction_length, shift_length};
use crate::text::{self, CanonicalText, Tail};
use crate::wide_names::{self, print_bracketed, without_names};
use ixdtf::encoding::{Utf8, Utf16};
use ixdtf::records::{DateRecord, IxdtfParseRecord, TimeRecord, UtcOffsetRecordOrZ};
use core::fmt;

/// Writes the canonical text of a time, such as `08:48:00Z[u-ca=hebrew]`, to the beginning of the slice.
///
/// The time is a record that [`IxdtfParser::parse_time`](ixdtf::parsers::IxdtfParser::parse_time) returns. The
/// canonical text has the time with its seconds, and no `T`. If the record has an offset, a zone or a calendar, they
/// follow the time, as [`print`](crate::print) writes them.
///
/// `parse_time` accepts the canonical text, although this text has no `T`. Without a `T`, `parse_time` refuses a text
/// that begins with a month and a day, or with a year and a month. A canonical text cannot begin in one of these two
/// ways, because its third byte is a colon.
///
/// Returns the number of bytes that were written. The canonical text has at most 12 bytes more than the text that was
/// parsed.
///
/// # Examples
///
/// ```rust
/// use ixdtf::parsers::IxdtfParser;
/// use ixdtf_print::{PrintError, print_time};
///
/// let mut out = [0; 64];
/// for (text, canonical) in [
///     ("T1214", "12:14:00"),
///     ("084800,25z", "08:48:00.25Z"),
///     ("12+01[!+01][u-ca=hebrew]", "12:00:00+01:00[!+01:00][u-ca=hebrew]"),
/// ] {
///     let record = IxdtfParser::from_str(text).parse_time().unwrap();
///     let count = print_time(&record, &mut out).unwrap();
///     assert_eq!(&out[..count], canonical.as_bytes());
///     assert_eq!(print_time(&record, &mut [0; 7]), Err(PrintError::TooShort));
/// }
/// let record = IxdtfParser::from_str("2024-03-02T08:48:00Z").parse().unwrap();
/// assert_eq!(print_time(&record, &mut out), Err(PrintError::NotPrintable));
/// ```
///
/// # Errors
///
/// After an error, the slice is unchanged.
///
/// - [`PrintError::NotPrintable`]: the record has no canonical text: it has a date, it has no time, or it has a value
///   that `parse_time` never returns, such as the hour 24.
/// - [`PrintError::TooShort`]: the slice is shorter than the canonical text.
pub fn print_time(parsed: &IxdtfParseRecord<'_, Utf8>, out: &mut [u8]) -> Result<usize, PrintError> {
    text::print(CanonicalTime { parsed }, out)
}

/// Writes the canonical text of a time as 16-bit code units, like [`print_time`](crate::print_time).
///
/// The record is one that [`IxdtfParser::parse_time`](ixdtf::parsers::IxdtfParser::parse_time) returns for 16-bit text.
/// Each code unit that was written is the number of an ASCII character. To read the code units, make a parser with
/// `from_utf16`. The number of code units is the number of bytes that `print_time` writes for the same fields.
///
/// # Examples
///
/// ```rust
/// use ixdtf::parsers::IxdtfParser;
/// use ixdtf_print::{PrintError, print_time_utf16};
///
/// let text: Vec<u16> = "12+01[!+01][u-ca=hebrew]".encode_utf16().collect();
/// let record = IxdtfParser::from_utf16(&text).parse_time().unwrap();
/// let mut out = [0; 64];
/// let count = print_time_utf16(&record, &mut out).unwrap();
/// let printed = String::from_utf16(&out[..count]).unwrap();
/// assert_eq!(printed, "12:00:00+01:00[!+01:00][u-ca=hebrew]");
/// assert_eq!(print_time_utf16(&record, &mut [0; 7]), Err(PrintError::TooShort));
/// ```
///
/// # Errors
///
/// After an error, the slice is unchanged.
///
/// - [`PrintError::NotPrintable`]: the record has no canonical text: it has a date, it has no time, or it has a value
///   that `parse_time` never returns for 16-bit text.
/// - [`PrintError::TooShort`]: the slice is shorter than the canonical text.
#[inline]
pub fn print_time_utf16(
    parsed: &IxdtfParseRecord<'_, Utf16>,
    out: &mut [u16],
) -> Result<usize, PrintError> {
    let core = without_names(parsed);
    print_bracketed(CanonicalTime { parsed: &core }, parsed, out)
}

/// Returns the number of bytes of the canonical text of a time.
///
/// A slice of this length is long enough for [`print_time`](crate::print_time). Returns `None` if the record has no
/// canonical text, or if a `usize` cannot hold its length.
///
/// # Examples
///
/// ```rust
/// use ixdtf::parsers::IxdtfParser;
/// use ixdtf_print::time_length;
///
/// let record = IxdtfParser::from_str("084800z[u-ca=hebrew]").parse_time().unwrap();
/// assert_eq!(time_length(&record), Some("08:48:00Z[u-ca=hebrew]".len()));
/// ```
pub fn time_length(parsed: &IxdtfParseRecord<'_, Utf8>) -> Option<usize> {
    text::printed_length(CanonicalTime { parsed })
}

/// Returns the number of code units of the canonical text of a time that was read from 16-bit text.
///
/// A slice of this length is long enough for [`print_time_utf16`](crate::print_time_utf16). Returns `None` if the record has no
/// canonical text, or if a `usize` cannot hold its length.
///
/// # Examples
///
/// ```rust
/// use ixdtf::parsers::IxdtfParser;
/// use ixdtf_print::time_length_utf16;
///
/// let text: Vec<u16> = "084800z[u-ca=hebrew]".encode_utf16().collect();
/// let record = IxdtfParser::from_utf16(&text).parse_time().unwrap();
/// assert_eq!(time_length_utf16(&record), Some("08:48:00Z[u-ca=hebrew]".len()));
/// ```
#[inline]
pub fn time_length_utf16(parsed: &IxdtfParseRecord<'_, Utf16>) -> Option<usize> {
    let core = without_names(parsed);
    wide_names::printed_length(CanonicalTime { parsed: &core }, parsed)
}

/// A value that displays the canonical text of a time, such as `08:48:00Z`.
///
/// This is the text that [`print_time`](crate::print_time) writes into a slice. `Display` does not allocate, and ignores
/// width and fill.
///
/// # Examples
///
/// ```rust
/// use ixdtf::parsers::IxdtfParser;
/// use ixdtf_print::CanonicalTime;
///
/// let record = IxdtfParser::from_str("084800z[u-ca=hebrew]").parse_time().unwrap();
/// assert_eq!(CanonicalTime::of(&record).unwrap().to_string(), "08:48:00Z[u-ca=hebrew]");
/// ```
#[derive(Clone, Copy, Debug)]
pub struct CanonicalTime<'a> {
    pub(crate) parsed: &'a IxdtfParseRecord<'a, Utf8>,
}

impl<'a> CanonicalTime<'a> {
    /// Creates a value that displays the record. Returns `None` if the record has no canonical text as a time.
    pub fn of(parsed: &'a IxdtfParseRecord<'a, Utf8>) -> Option<CanonicalTime<'a>> {
        text::checked(CanonicalTime { parsed })
    }
}

impl<'a> CanonicalText for CanonicalTime<'a> {
    fn is_printable(self) -> bool {
        is_spelled(self.parsed)
    }

    fn core_length(self) -> u16 {
        time_core_length(self.parsed)
    }

    fn put_core(self, out: &mut [u8]) -> usize {
        put_time_core(out, 0, self.parsed)
    }

    fn tail(&self) -> Tail<'_> {
        Tail::Brackets(self.parsed)
    }
}

// `Display` ignores width and fill.
impl<'a> fmt::Display for CanonicalTime<'a> {
    fn fmt(&self, f: &mut fmt::Formatter<'_>) -> fmt::Result {
        text::write(*self, f)
    }
}

/// Returns whether each field has a text, and the record has the fields of a time.
fn is_spelled(parsed: &IxdtfParseRecord<'_, Utf8>) -> bool {
    has_lone_time(parsed.date, parsed.time, parsed.offset) && has_brackets(parsed)
}

/// Returns whether there is no date, there is a time, and the time has a text. If there is an offset, it must have a
/// text too.
fn has_lone_time(
    date: Option<DateRecord>,
    time: Option<TimeRecord>,
    offset: Option<UtcOffsetRecordOrZ>,
) -> bool {
    match (date, time) {
        (None, None) => false,
        (None, Some(time)) => has_time(Some(time), offset),
        (Some(_), _) => false,
    }
}

// ---- Lengths

/// Returns the number of bytes of the time, without a `T`.
fn unmarked_time_length(time: Option<TimeRecord>) -> u16 {
    match time {
        None => 0,
        Some(time) => 8 + fraction_length(time.fraction),
    }
}

/// Returns the number of bytes of the time and the offset.
fn time_core_length(parsed: &IxdtfParseRecord<'_, Utf8>) -> u16 {
    unmarked_time_length(parsed.time) + shift_length(parsed.offset)
}

// ---- Bytes

/// Writes an hour, a minute and a second at index `at`. Returns the index after them.
fn put_unmarked_seconds(out: &mut [u8], at: usize, hour: u8, minute: u8, second: u8) -> usize {
    let colon = put_two(out, at, hour);
    put_minutes(out, colon, b':', minute, second)
}

/// Writes the time at index `at`, if there is one, without a `T`. Returns the index after it.
fn put_unmarked_time(out: &mut [u8], at: usize, time: Option<TimeRecord>) -> usize {
    let Some(time) = time else {
        return at;
    };
    let point = put_unmarked_seconds(out, at, time.hour, time.minute, time.second);
    put_fraction(out, point, time.fraction)
}

/// Writes the time and the offset at index `at`. Returns the index after them.
fn put_time_core(out: &mut [u8], at: usize, parsed: &IxdtfParseRecord<'_, Utf8>) -> usize {
    let after_time = put_unmarked_time(out, at, parsed.time);
    put_offset(out, after_time, parsed.offset)
}
