//! Implements `FromStr` and `TryFrom<&str>` for offsets and for durations.
//!
//! A person wrote this file, because the library in Rattle has no such implementations. In Rattle, the records and the readers are in
//! different crates, and a crate cannot implement a trait of `core` for a type of another crate.

use crate::parsers::{IsoDurationParser, TimeZoneParser};
use crate::records::{DurationParseRecord, UtcOffsetRecord};
use crate::{ParseError, ParserResult};
use core::str::FromStr;

impl FromStr for UtcOffsetRecord {
    type Err = ParseError;

    /// Parses a text as an offset from UTC, such as `-05:30`. The result is that of [`TimeZoneParser::parse_offset`].
    ///
    /// # Examples
    ///
    /// ```rust
    /// use ixdtf::records::UtcOffsetRecord;
    ///
    /// let offset: UtcOffsetRecord = "-05:30".parse()?;
    /// assert_eq!(offset.to_seconds(), -19_800);
    /// # Ok::<(), ixdtf::ParseError>(())
    /// ```
    ///
    /// # Errors
    ///
    /// This function has the errors of [`TimeZoneParser::parse_offset`].
    fn from_str(text: &str) -> ParserResult<UtcOffsetRecord> {
        TimeZoneParser::from_str(text).parse_offset()
    }
}

impl TryFrom<&str> for UtcOffsetRecord {
    type Error = ParseError;

    /// Parses a text as an offset from UTC, such as `-05:30`. The result is that of [`TimeZoneParser::parse_offset`].
    ///
    /// # Errors
    ///
    /// This function has the errors of [`TimeZoneParser::parse_offset`].
    fn try_from(text: &str) -> ParserResult<UtcOffsetRecord> {
        text.parse()
    }
}

impl FromStr for DurationParseRecord {
    type Err = ParseError;

    /// Parses a text as a duration, such as `P2W`. The result is that of [`IsoDurationParser::parse`] of a new parser.
    ///
    /// # Examples
    ///
    /// ```rust
    /// use ixdtf::records::DurationParseRecord;
    ///
    /// let duration: DurationParseRecord = "P2W".parse()?;
    /// assert_eq!(duration.date.unwrap().weeks, 2);
    /// # Ok::<(), ixdtf::ParseError>(())
    /// ```
    ///
    /// # Errors
    ///
    /// This function has the errors of [`IsoDurationParser::parse`].
    fn from_str(text: &str) -> ParserResult<DurationParseRecord> {
        IsoDurationParser::from_str(text).parse()
    }
}

impl TryFrom<&str> for DurationParseRecord {
    type Error = ParseError;

    /// Parses a text as a duration, such as `P2W`. The result is that of [`IsoDurationParser::parse`] of a new parser.
    ///
    /// # Errors
    ///
    /// This function has the errors of [`IsoDurationParser::parse`].
    fn try_from(text: &str) -> ParserResult<DurationParseRecord> {
        text.parse()
    }
}
