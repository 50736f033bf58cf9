// Made by tools/to_rust.py of crates/ixdtf_checks/src/printing.rt. Do not edit.

//! Reads a text, and prints its canonical text.

use crate::kind::Kind;
use crate::printed_line::PrintedText;
use crate::reading::{duration_parser, parser};
use ixdtf::LocatedError;
use ixdtf::parsers::{IxdtfParser, Profile, TimeZoneParser};
use ixdtf::records::TimeZoneRecord;

/// Reads the text as a text of the kind, and prints its canonical text to `printed`. Returns the error with its position, if the
/// text is refused.
pub fn read_to_print(
    kind: Kind,
    profile: Profile,
    text: &[u8],
    printed: &mut PrintedText,
) -> Result<(), LocatedError> {
    match kind {
        Kind::DateTime => print_date_time(text, printed),
        Kind::YearMonth => print_year_month(text, printed),
        Kind::MonthDay => print_month_day(profile, text, printed),
        Kind::Time => print_time(profile, text, printed),
        Kind::Offset => print_offset(text, printed),
        Kind::Zone => print_zone(text, printed),
        Kind::ZoneName => print_zone_name(text, printed),
        Kind::Duration => print_duration(profile, text, printed),
        Kind::Rfc3339 => print_rfc3339(text, printed),
        Kind::Iana => print_zone_name(text, printed),
        Kind::Rfc9557 => print_rfc9557(text, printed),
    }
}

/// Reads the text by `parse`, and prints its canonical text. Returns the error with its position, if the text is refused.
#[inline(always)]
pub fn print_date_time(text: &[u8], printed: &mut PrintedText) -> Result<(), LocatedError> {
    match IxdtfParser::from_utf8(text).parse_located() {
        Ok(parts) => {
            printed.print(&parts);
            Ok(())
        }
        Err(error) => Err(error),
    }
}

/// Reads the text as a date-time of RFC 3339, and prints its canonical text.
#[inline(never)]
fn print_rfc3339(text: &[u8], printed: &mut PrintedText) -> Result<(), LocatedError> {
    match IxdtfParser::from_utf8(text).parse_rfc3339_located() {
        Ok(parts) => {
            printed.print(&parts);
            Ok(())
        }
        Err(error) => Err(error),
    }
}

/// Reads the text as a date-time of RFC 9557, and prints its canonical text.
#[inline(never)]
fn print_rfc9557(text: &[u8], printed: &mut PrintedText) -> Result<(), LocatedError> {
    match IxdtfParser::from_utf8(text).parse_rfc9557_located() {
        Ok(parts) => {
            printed.print(&parts);
            Ok(())
        }
        Err(error) => Err(error),
    }
}

/// Reads the text as a year and a month, and prints its canonical text.
#[inline(never)]
fn print_year_month(text: &[u8], printed: &mut PrintedText) -> Result<(), LocatedError> {
    match IxdtfParser::from_utf8(text).parse_year_month_located() {
        Ok(parts) => {
            printed.print_year_month(&parts);
            Ok(())
        }
        Err(error) => Err(error),
    }
}

/// Reads the text as a month and a day, and prints its canonical text.
#[inline(never)]
fn print_month_day(
    profile: Profile,
    text: &[u8],
    printed: &mut PrintedText,
) -> Result<(), LocatedError> {
    match parser(profile, text).parse_month_day_located() {
        Ok(parts) => {
            printed.print_month_day(&parts);
            Ok(())
        }
        Err(error) => Err(error),
    }
}

/// Reads the text as a time, and prints its canonical text.
#[inline(never)]
fn print_time(profile: Profile, text: &[u8], printed: &mut PrintedText) -> Result<(), LocatedError> {
    match parser(profile, text).parse_time_located() {
        Ok(parts) => {
            printed.print_time(&parts);
            Ok(())
        }
        Err(error) => Err(error),
    }
}

/// Reads the text as an offset, and prints its canonical text.
#[inline(never)]
fn print_offset(text: &[u8], printed: &mut PrintedText) -> Result<(), LocatedError> {
    match TimeZoneParser::from_utf8(text).parse_offset_located() {
        Ok(offset) => {
            printed.print_offset(&offset);
            Ok(())
        }
        Err(error) => Err(error),
    }
}

/// Reads the text as a time zone, and prints its canonical text.
#[inline(never)]
fn print_zone(text: &[u8], printed: &mut PrintedText) -> Result<(), LocatedError> {
    match TimeZoneParser::from_utf8(text).parse_identifier_located() {
        Ok(zone) => {
            printed.print_zone(&zone);
            Ok(())
        }
        Err(error) => Err(error),
    }
}

/// Reads the text as the name of a time zone, and prints its canonical text.
#[inline(never)]
fn print_zone_name(text: &[u8], printed: &mut PrintedText) -> Result<(), LocatedError> {
    match TimeZoneParser::from_utf8(text).parse_iana_identifier_located() {
        Ok(name) => {
            printed.print_zone(&TimeZoneRecord::Name(name));
            Ok(())
        }
        Err(error) => Err(error),
    }
}

/// Reads the text as a duration, and prints its canonical text.
#[inline(never)]
fn print_duration(
    profile: Profile,
    text: &[u8],
    printed: &mut PrintedText,
) -> Result<(), LocatedError> {
    match duration_parser(profile, text).parse_located() {
        Ok(duration) => {
            printed.print_duration(&duration);
            Ok(())
        }
        Err(error) => Err(error),
    }
}
