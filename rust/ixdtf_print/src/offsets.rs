// Made by tools/to_rust.py of crates/ixdtf_print/src/offsets.rt. Do not edit.

//! Offsets printed as their canonical texts.

use crate::check::is_shift;
use crate::error::PrintError;
use crate::fields::put_offset;
use crate::length::shift_length;
use crate::text::{self, CanonicalText, Tail};
use ixdtf::records::{UtcOffsetRecord, UtcOffsetRecordOrZ};
use core::fmt;

/// Writes the canonical text of an offset, such as `-05:00` or `+01:30:15.5`, to the beginning of the slice.
///
/// The offset is a record that [`TimeZoneParser::parse_offset`](ixdtf::parsers::TimeZoneParser::parse_offset) returns. The
/// canonical text has the seconds exactly if the offset was read with seconds: `+01` is written as `+01:00`, and
/// `+01:00:00` stays as it is. Digits of a fraction after the first 18 are written as zeros.
///
/// Returns the number of bytes that were written. The canonical text has at most 3 bytes more than the text that was
/// parsed.
///
/// # Examples
///
/// ```rust
/// use ixdtf::parsers::TimeZoneParser;
/// use ixdtf_print::{PrintError, print_offset};
///
/// let mut out = [0; 16];
/// for (text, canonical) in [
///     ("-05", "-05:00"),
///     ("+0130", "+01:30"),
///     ("+013015,5", "+01:30:15.5"),
/// ] {
///     let offset = TimeZoneParser::from_str(text).parse_offset().unwrap();
///     let count = print_offset(&offset, &mut out).unwrap();
///     assert_eq!(&out[..count], canonical.as_bytes());
///     assert_eq!(print_offset(&offset, &mut [0; 5]), Err(PrintError::TooShort));
/// }
/// ```
///
/// # Errors
///
/// After an error, the slice is unchanged.
///
/// - [`PrintError::NotPrintable`]: the offset has no canonical text, because its hour, its minute or its second is out of range.
/// - [`PrintError::TooShort`]: the slice is shorter than the canonical text.
pub fn print_offset(offset: &UtcOffsetRecord, out: &mut [u8]) -> Result<usize, PrintError> {
    text::print(CanonicalOffset { offset }, out)
}

/// Writes the canonical text of an offset as 16-bit code units, like [`print_offset`](crate::print_offset).
///
/// Each code unit is the number of an ASCII character, so
/// [`TimeZoneParser::from_utf16`](ixdtf::parsers::TimeZoneParser::from_utf16) makes a parser that reads the text. The
/// number of code units is the number of bytes that `print_offset` writes.
///
/// # Examples
///
/// ```rust
/// use ixdtf::parsers::TimeZoneParser;
/// use ixdtf_print::{PrintError, print_offset_utf16};
///
/// let text: Vec<u16> = "+013015,5".encode_utf16().collect();
/// let offset = TimeZoneParser::from_utf16(&text).parse_offset().unwrap();
/// let mut out = [0; 16];
/// let count = print_offset_utf16(&offset, &mut out).unwrap();
/// assert_eq!(String::from_utf16(&out[..count]).unwrap(), "+01:30:15.5");
/// assert_eq!(print_offset_utf16(&offset, &mut [0; 5]), Err(PrintError::TooShort));
/// ```
///
/// # Errors
///
/// After an error, the slice is unchanged.
///
/// - [`PrintError::NotPrintable`]: the offset has no canonical text, because its hour, its minute or its second is out of range.
/// - [`PrintError::TooShort`]: the slice is shorter than the canonical text.
pub fn print_offset_utf16(offset: &UtcOffsetRecord, out: &mut [u16]) -> Result<usize, PrintError> {
    text::print_utf16(CanonicalOffset { offset }, out)
}

/// Returns the number of bytes of the canonical text of an offset.
///
/// A slice of this length is long enough for [`print_offset`](crate::print_offset). Returns `None` if the offset has no
/// canonical text.
///
/// # Examples
///
/// ```rust
/// use ixdtf::parsers::TimeZoneParser;
/// use ixdtf_print::offset_length;
///
/// let offset = TimeZoneParser::from_str("+013015,5").parse_offset().unwrap();
/// assert_eq!(offset_length(&offset), Some("+01:30:15.5".len()));
/// ```
pub fn offset_length(offset: &UtcOffsetRecord) -> Option<usize> {
    text::printed_length(CanonicalOffset { offset })
}

/// A value that displays the canonical text of an offset, such as `-05:00`.
///
/// This is the text that [`print_offset`](crate::print_offset) writes into a slice. `Display` does not allocate, and
/// ignores width and fill.
///
/// # Examples
///
/// ```rust
/// use ixdtf::parsers::TimeZoneParser;
/// use ixdtf_print::CanonicalOffset;
///
/// let offset = TimeZoneParser::from_str("-0530").parse_offset().unwrap();
/// assert_eq!(CanonicalOffset::of(&offset).unwrap().to_string(), "-05:30");
/// ```
#[derive(Clone, Copy, Debug)]
pub struct CanonicalOffset<'a> {
    pub(crate) offset: &'a UtcOffsetRecord,
}

impl<'a> CanonicalOffset<'a> {
    /// Creates a value that displays the offset. Returns `None` if the offset has no canonical text.
    pub fn of(offset: &'a UtcOffsetRecord) -> Option<CanonicalOffset<'a>> {
        text::checked(CanonicalOffset { offset })
    }
}

impl<'a> CanonicalText for CanonicalOffset<'a> {
    fn is_printable(self) -> bool {
        is_shift(UtcOffsetRecordOrZ::Offset(*self.offset))
    }

    fn core_length(self) -> u16 {
        shift_length(Some(UtcOffsetRecordOrZ::Offset(*self.offset)))
    }

    fn put_core(self, out: &mut [u8]) -> usize {
        put_offset(out, 0, Some(UtcOffsetRecordOrZ::Offset(*self.offset)))
    }

    fn tail(&self) -> Tail<'_> {
        Tail::Nothing
    }
}

// `Display` ignores width and fill.
impl<'a> fmt::Display for CanonicalOffset<'a> {
    fn fmt(&self, f: &mut fmt::Formatter<'_>) -> fmt::Result {
        text::write(*self, f)
    }
}
