// Made by tools/to_rust.py of crates/ixdtf_print/src/month_days.rt. Do not edit.

//! Months and days printed as their canonical texts.

use crate::check::has_brackets;
use crate::digits::put_two;
use crate::error::PrintError;
use crate::put::put_byte;
use crate::text::{self, CanonicalText, Tail};
use crate::wide_names::{self, print_bracketed, without_names};
use ixdtf::encoding::{Utf8, Utf16};
use ixdtf::parsers::days_in_month;
use ixdtf::records::{DateRecord, IxdtfParseRecord, TimeRecord, UtcOffsetRecordOrZ};
use core::fmt;

/// Writes the canonical text of a month and a day, such as `11-07[u-ca=hebrew]`, to the beginning of the slice.
///
/// The record is one that [`IxdtfParser::parse_month_day`](ixdtf::parsers::IxdtfParser::parse_month_day) returns. The
/// canonical text has the month, a hyphen and the day. If the text began with two hyphens, such as `--11-07`, they are
/// not written. If the record has a zone or a calendar, they follow the day, as [`print`](crate::print) writes them.
/// The day can be 00, because `parse_month_day` returns such a record under the default profile.
///
/// The record of the date `0000-11-07` is equal to the record of `11-07`. `print` writes both as `0000-11-07`, and this
/// function writes both as `11-07`.
///
/// Returns the number of bytes that were written. The canonical text has at most 4 bytes more than the text that was
/// parsed.
///
/// # Examples
///
/// ```rust
/// use ixdtf::parsers::IxdtfParser;
/// use ixdtf_print::{PrintError, print_month_day};
///
/// let mut out = [0; 64];
/// for (text, canonical) in [
///     ("--11-07", "11-07"),
///     ("0229[u-ca=hebrew]", "02-29[u-ca=hebrew]"),
///     ("1100[+01]", "11-00[+01:00]"),
/// ] {
///     let record = IxdtfParser::from_str(text).parse_month_day().unwrap();
///     let count = print_month_day(&record, &mut out).unwrap();
///     assert_eq!(&out[..count], canonical.as_bytes());
///     assert_eq!(print_month_day(&record, &mut [0; 4]), Err(PrintError::TooShort));
/// }
/// let record = IxdtfParser::from_str("2020-11-08").parse().unwrap();
/// assert_eq!(print_month_day(&record, &mut out), Err(PrintError::NotPrintable));
/// ```
///
/// # Errors
///
/// After an error, the slice is unchanged.
///
/// - [`PrintError::NotPrintable`]: the record has no canonical text: it has no date, its year is not 0, it has a time
///   or an offset, or it has a value that `parse_month_day` never returns, such as the month 13.
/// - [`PrintError::TooShort`]: the slice is shorter than the canonical text.
pub fn print_month_day(
    parsed: &IxdtfParseRecord<'_, Utf8>,
    out: &mut [u8],
) -> Result<usize, PrintError> {
    text::print(CanonicalMonthDay { parsed }, out)
}

/// Writes the canonical text of a month and a day as 16-bit code units, like [`print_month_day`](crate::print_month_day).
///
/// The record is one that [`IxdtfParser::parse_month_day`](ixdtf::parsers::IxdtfParser::parse_month_day) returns for
/// 16-bit text. Each code unit that was written is the number of an ASCII character. To read the code units, make a
/// parser with `from_utf16`. The number of code units is the number of bytes that `print_month_day` writes for the same
/// fields.
///
/// # Examples
///
/// ```rust
/// use ixdtf::parsers::IxdtfParser;
/// use ixdtf_print::{PrintError, print_month_day_utf16};
///
/// let text: Vec<u16> = "--1107[!Europe/Paris]".encode_utf16().collect();
/// let record = IxdtfParser::from_utf16(&text).parse_month_day().unwrap();
/// let mut out = [0; 64];
/// let count = print_month_day_utf16(&record, &mut out).unwrap();
/// assert_eq!(String::from_utf16(&out[..count]).unwrap(), "11-07[!Europe/Paris]");
/// assert_eq!(print_month_day_utf16(&record, &mut [0; 4]), Err(PrintError::TooShort));
/// ```
///
/// # Errors
///
/// After an error, the slice is unchanged.
///
/// - [`PrintError::NotPrintable`]: the record has no canonical text: it has no date, its year is not 0, it has a time
///   or an offset, or it has a value that `parse_month_day` never returns for 16-bit text.
/// - [`PrintError::TooShort`]: the slice is shorter than the canonical text.
#[inline]
pub fn print_month_day_utf16(
    parsed: &IxdtfParseRecord<'_, Utf16>,
    out: &mut [u16],
) -> Result<usize, PrintError> {
    let core = without_names(parsed);
    print_bracketed(CanonicalMonthDay { parsed: &core }, parsed, out)
}

/// Returns the number of bytes of the canonical text of a month and a day.
///
/// A slice of this length is long enough for [`print_month_day`](crate::print_month_day). Returns `None` if the record has no
/// canonical text, or if a `usize` cannot hold its length.
///
/// # Examples
///
/// ```rust
/// use ixdtf::parsers::IxdtfParser;
/// use ixdtf_print::month_day_length;
///
/// let record = IxdtfParser::from_str("--1107[u-ca=hebrew]").parse_month_day().unwrap();
/// assert_eq!(month_day_length(&record), Some("11-07[u-ca=hebrew]".len()));
/// ```
pub fn month_day_length(parsed: &IxdtfParseRecord<'_, Utf8>) -> Option<usize> {
    text::printed_length(CanonicalMonthDay { parsed })
}

/// Returns the number of code units of the canonical text of a month and a day, for a record that was read from 16-bit
/// text.
///
/// A slice of this length is long enough for [`print_month_day_utf16`](crate::print_month_day_utf16). Returns `None` if
/// the record has no canonical text, or if a `usize` cannot hold its length.
///
/// # Examples
///
/// ```rust
/// use ixdtf::parsers::IxdtfParser;
/// use ixdtf_print::month_day_length_utf16;
///
/// let text: Vec<u16> = "--1107[u-ca=hebrew]".encode_utf16().collect();
/// let record = IxdtfParser::from_utf16(&text).parse_month_day().unwrap();
/// assert_eq!(month_day_length_utf16(&record), Some("11-07[u-ca=hebrew]".len()));
/// ```
#[inline]
pub fn month_day_length_utf16(parsed: &IxdtfParseRecord<'_, Utf16>) -> Option<usize> {
    let core = without_names(parsed);
    wide_names::printed_length(CanonicalMonthDay { parsed: &core }, parsed)
}

/// A value that displays the canonical text of a month and a day, such as `11-07`.
///
/// This is the text that [`print_month_day`](crate::print_month_day) writes into a slice. `Display` does not allocate, and ignores
/// width and fill.
///
/// # Examples
///
/// ```rust
/// use ixdtf::parsers::IxdtfParser;
/// use ixdtf_print::CanonicalMonthDay;
///
/// let record = IxdtfParser::from_str("--1107[u-ca=hebrew]").parse_month_day().unwrap();
/// assert_eq!(CanonicalMonthDay::of(&record).unwrap().to_string(), "11-07[u-ca=hebrew]");
/// ```
#[derive(Clone, Copy, Debug)]
pub struct CanonicalMonthDay<'a> {
    pub(crate) parsed: &'a IxdtfParseRecord<'a, Utf8>,
}

impl<'a> CanonicalMonthDay<'a> {
    /// Creates a value that displays the record. Returns `None` if the record has no canonical text as a month and a day.
    pub fn of(parsed: &'a IxdtfParseRecord<'a, Utf8>) -> Option<CanonicalMonthDay<'a>> {
        text::checked(CanonicalMonthDay { parsed })
    }
}

impl<'a> CanonicalText for CanonicalMonthDay<'a> {
    fn is_printable(self) -> bool {
        is_spelled(self.parsed)
    }

    fn core_length(self) -> u16 {
        optional_day_length(self.parsed.date)
    }

    fn put_core(self, out: &mut [u8]) -> usize {
        put_optional_day(out, 0, self.parsed.date)
    }

    fn tail(&self) -> Tail<'_> {
        Tail::Brackets(self.parsed)
    }
}

// `Display` ignores width and fill.
impl<'a> fmt::Display for CanonicalMonthDay<'a> {
    fn fmt(&self, f: &mut fmt::Formatter<'_>) -> fmt::Result {
        text::write(*self, f)
    }
}

/// Returns whether each field has a text, and the record has the fields of a month and a day.
fn is_spelled(parsed: &IxdtfParseRecord<'_, Utf8>) -> bool {
    has_lone_day(parsed.date, parsed.time, parsed.offset) && has_brackets(parsed)
}

/// Returns whether the date is a day of the year 0, and there is neither a time nor an offset. The day may be 0.
fn has_lone_day(
    date: Option<DateRecord>,
    time: Option<TimeRecord>,
    offset: Option<UtcOffsetRecordOrZ>,
) -> bool {
    match (date, time, offset) {
        (None, _, _) => false,
        (Some(date), None, None) => is_day_of_any_year(date),
        (Some(_), None, Some(_)) => false,
        (Some(_), Some(_), _) => false,
    }
}

/// Returns whether the year of the date is 0, its month is 1 to 12, and its day is 0 or a day that this month has in
/// some year.
fn is_day_of_any_year(date: DateRecord) -> bool {
    date.year == 0
        && 1 <= date.month
        && date.month <= 12
        && date.day <= days_in_month(0, date.month)
}

// ---- Lengths

/// Returns the number of bytes of the month and the day.
fn optional_day_length(date: Option<DateRecord>) -> u16 {
    match date {
        None => 0,
        Some(_) => 5,
    }
}

// ---- Bytes

/// Writes the month and the day at index `at`, if there is a date. Returns the index after them.
fn put_optional_day(out: &mut [u8], at: usize, date: Option<DateRecord>) -> usize {
    match date {
        None => at,
        Some(date) => put_day(out, at, date),
    }
}

/// Writes the month and the day at index `at`. Returns the index after them.
fn put_day(out: &mut [u8], at: usize, date: DateRecord) -> usize {
    let hyphen = put_two(out, at, date.month);
    let day = put_byte(out, hyphen, b'-');
    put_two(out, day, date.day)
}
