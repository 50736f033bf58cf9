// Made by tools/to_rust.py of crates/ixdtf_print/src/wide_names.rt. Do not edit.

//! Functions that print a record or a zone of 16-bit text as 16-bit code units. Of a record, they write the zone and the
//! calendar in brackets. `print_zone` writes a zone without brackets.
//!
//! The date, the time and the offset of a record do not depend on the width of the code units of the text. So the
//! functions for 8-bit text write them.
// Because of `#[inline]` at each function here, and at each public function that calls one of them, `rustc` compiles them
// only into the crates that call them. Otherwise it would inline less into the functions for 8-bit text, and these would
// take up to a tenth more.

use crate::check::is_minute_clock;
use crate::error::PrintError;
use crate::fields::{opening_of, put_minute_offset};
use crate::text::{CanonicalText, put_core_utf16};
use crate::wide::{put_unit, put_units, put_wide};
use crate::written::front_of;
use ixdtf::encoding::{Utf8, Utf16};
use ixdtf::parsers::{TimeZoneParser, is_annotation_value_component};
use ixdtf::records::{IxdtfParseRecord, MinutePrecisionOffset, TimeZoneAnnotation, TimeZoneRecord};

/// The code unit `-`.
const HYPHEN: u16 = 45;

/// The code unit `]`.
const CLOSING: u16 = 93;

/// Writes the core, and then the brackets of the record. Returns the number of code units.
#[inline]
pub fn print_bracketed<T: CanonicalText>(
    core: T,
    parsed: &IxdtfParseRecord<'_, Utf16>,
    out: &mut [u16],
) -> Result<usize, PrintError> {
    if !is_printable(core, parsed) {
        return Err(PrintError::NotPrintable);
    }
    if (out.len() as u128) < bracketed_length(core, parsed) {
        return Err(PrintError::TooShort);
    }
    Ok(put_bracketed(core, parsed, out))
}

/// Returns whether the core and the brackets can be written.
#[inline]
fn is_printable<T: CanonicalText>(core: T, parsed: &IxdtfParseRecord<'_, Utf16>) -> bool {
    core.is_printable() && has_brackets(parsed)
}

/// Returns the number of code units of the core and the brackets.
#[inline]
fn bracketed_length<T: CanonicalText>(core: T, parsed: &IxdtfParseRecord<'_, Utf16>) -> u128 {
    u128::from(core.core_length()) + brackets_length(parsed)
}

/// Writes the core and the brackets at the beginning of the slice. Returns the index after them.
#[inline]
fn put_bracketed<T: CanonicalText>(
    core: T,
    parsed: &IxdtfParseRecord<'_, Utf16>,
    out: &mut [u16],
) -> usize {
    let after_core = put_core_utf16(core, out);
    put_brackets(out, after_core, parsed)
}

/// Returns the number of code units of the core and the brackets, if they can be written and a `usize` can hold the number.
#[inline]
pub fn printed_length<T: CanonicalText>(
    core: T,
    parsed: &IxdtfParseRecord<'_, Utf16>,
) -> Option<usize> {
    if is_printable(core, parsed) {
        usize::try_from(bracketed_length(core, parsed)).ok()
    } else {
        None
    }
}

/// Writes the zone, without brackets. Returns the number of code units.
#[inline]
pub fn print_zone(zone: &TimeZoneRecord<'_, Utf16>, out: &mut [u16]) -> Result<usize, PrintError> {
    if !is_zone(zone) {
        return Err(PrintError::NotPrintable);
    }
    if (out.len() as u128) < length_of_zone(zone) {
        return Err(PrintError::TooShort);
    }
    Ok(put_zone(out, 0, zone))
}

/// Returns the number of code units of the zone, if it has a text.
#[inline]
pub fn zone_length(zone: &TimeZoneRecord<'_, Utf16>) -> Option<usize> {
    if is_zone(zone) {
        Some(length_of_zone(zone) as usize)
    } else {
        None
    }
}

/// Returns a record of 8-bit text with the date, the time and the offset of `parsed`. The result has no zone and no
/// calendar.
#[inline]
pub fn without_names(parsed: &IxdtfParseRecord<'_, Utf16>) -> IxdtfParseRecord<'static, Utf8> {
    let mut core = IxdtfParseRecord::default();
    core.date = parsed.date;
    core.time = parsed.time;
    core.offset = parsed.offset;
    core
}

// ---- Tests

/// Returns whether the code units are the name of a time zone, as `parse_iana_identifier` accepts it.
#[inline]
fn is_name(name: &[u16]) -> bool {
    TimeZoneParser::from_utf16(name)
        .parse_iana_identifier()
        .is_ok()
}

/// Returns whether the zone has a text.
#[inline]
fn is_zone(zone: &TimeZoneRecord<'_, Utf16>) -> bool {
    match zone {
        TimeZoneRecord::Name(name) => is_name(name),
        TimeZoneRecord::Offset(offset) => is_minute_clock(*offset),
        _ => unreachable!(),
    }
}

/// Returns whether there is no zone, or the zone has a text.
#[inline]
fn has_zone(note: &Option<TimeZoneAnnotation<'_, Utf16>>) -> bool {
    match note {
        None => true,
        Some(note) => is_zone(&note.tz),
    }
}

/// Returns whether the code unit is an ASCII letter or a digit. A value of an annotation consists of these code units,
/// and of hyphens between them.
#[inline]
fn is_value_unit(unit: u16) -> bool {
    unit <= 255 && is_annotation_value_component(unit as u8)
}

/// Returns whether the code units are the value of an annotation.
#[inline]
fn is_value(units: &[u16]) -> bool {
    let mut in_run = false;
    for unit in units {
        if is_value_unit(*unit) {
            in_run = true;
        } else if *unit == HYPHEN && in_run {
            in_run = false;
        } else {
            return false;
        }
    }
    in_run
}

/// Returns whether there is no calendar, or the calendar has a text.
#[inline]
fn has_calendar(calendar: Option<&[u16]>) -> bool {
    match calendar {
        None => true,
        Some(value) => is_value(value),
    }
}

/// Returns whether the zone and the calendar have texts. A zone or a calendar that the record does not have needs no
/// text.
#[inline]
fn has_brackets(parsed: &IxdtfParseRecord<'_, Utf16>) -> bool {
    has_zone(&parsed.tz) && has_calendar(parsed.calendar)
}

// ---- Lengths

/// Returns the number of code units of the zone, without its bracket.
#[inline]
fn length_of_zone(zone: &TimeZoneRecord<'_, Utf16>) -> u128 {
    match zone {
        TimeZoneRecord::Name(name) => name.len() as u128,
        TimeZoneRecord::Offset(_) => 6,
        _ => unreachable!(),
    }
}

/// Returns the number of code units of the bracket with the zone.
#[inline]
fn bracket_length(note: &Option<TimeZoneAnnotation<'_, Utf16>>) -> u128 {
    match note {
        None => 0,
        Some(note) => {
            if note.critical {
                3 + length_of_zone(&note.tz)
            } else {
                2 + length_of_zone(&note.tz)
            }
        }
    }
}

/// Returns the number of code units of the bracket with the calendar.
#[inline]
fn calendar_length(calendar: Option<&[u16]>) -> u128 {
    match calendar {
        None => 0,
        Some(value) => 7 + value.len() as u128,
    }
}

/// Returns the number of code units of the two brackets.
#[inline]
fn brackets_length(parsed: &IxdtfParseRecord<'_, Utf16>) -> u128 {
    bracket_length(&parsed.tz) + calendar_length(parsed.calendar)
}

// ---- Code units

/// Writes an offset with hours and minutes at index `at`. Returns the index after it.
#[inline]
fn put_zone_offset(out: &mut [u16], at: usize, offset: MinutePrecisionOffset) -> usize {
    let mut bytes = [0; 6];
    put_minute_offset(&mut bytes, 0, offset);
    put_wide(out, at, front_of(&bytes, 6))
}

/// Writes the zone at index `at`. Returns the index after it.
#[inline]
fn put_zone(out: &mut [u16], at: usize, zone: &TimeZoneRecord<'_, Utf16>) -> usize {
    match zone {
        TimeZoneRecord::Name(name) => put_units(out, at, name),
        TimeZoneRecord::Offset(offset) => put_zone_offset(out, at, *offset),
        _ => unreachable!(),
    }
}

/// Writes the zone in its bracket at index `at`, if there is one. Returns the index after it.
#[inline]
fn put_bracket(out: &mut [u16], at: usize, note: &Option<TimeZoneAnnotation<'_, Utf16>>) -> usize {
    match note {
        None => at,
        Some(note) => {
            let inside = put_wide(out, at, opening_of(note.critical));
            let end = put_zone(out, inside, &note.tz);
            put_unit(out, end, CLOSING)
        }
    }
}

/// Writes the calendar in its bracket at index `at`, if there is one. Returns the index after it.
#[inline]
fn put_calendar(out: &mut [u16], at: usize, calendar: Option<&[u16]>) -> usize {
    match calendar {
        None => at,
        Some(value) => {
            let inside = put_wide(out, at, b"[u-ca=");
            let end = put_units(out, inside, value);
            put_unit(out, end, CLOSING)
        }
    }
}

/// Writes the two brackets at index `at`. Returns the index after them.
#[inline]
fn put_brackets(out: &mut [u16], at: usize, parsed: &IxdtfParseRecord<'_, Utf16>) -> usize {
    let after_bracket = put_bracket(out, at, &parsed.tz);
    put_calendar(out, after_bracket, parsed.calendar)
}
