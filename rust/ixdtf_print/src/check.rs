// Made by tools/to_rust.py of crates/ixdtf_print/src/check.rt. Do not edit.

//! Functions that test whether a record has a canonical text.

use ixdtf::encoding::Utf8;
use ixdtf::parsers::{TimeZoneParser, days_in_month, is_annotation_value_component};
use ixdtf::records::{
    DateRecord, Fraction, IxdtfParseRecord, MinutePrecisionOffset, TimeRecord, TimeZoneAnnotation,
    TimeZoneRecord, UtcOffsetRecord, UtcOffsetRecordOrZ,
};

/// Returns whether the date is a day of the Gregorian calendar, in a year with at most six digits.
fn is_day(date: DateRecord) -> bool {
    if date.year.unsigned_abs() > 999_999 || date.month < 1 || date.month > 12 {
        return false;
    }
    1 <= date.day && date.day <= days_in_month(date.year, date.month)
}

/// Returns whether the hour is at most 23, the minute is at most 59, and the second is at most `last`. The fraction is
/// not tested.
fn is_clock(last: u8, hour: u8, minute: u8, second: u8, fraction: Option<Fraction>) -> bool {
    hour <= 23 && minute <= 59 && second <= last
}

/// Returns whether the numbers are a time of day. The second may be 60.
fn is_day_time(time: TimeRecord) -> bool {
    is_clock(60, time.hour, time.minute, time.second, time.fraction)
}

/// Returns whether the hours of the offset are at most 23, and its minutes are at most 59.
pub fn is_minute_clock(offset: MinutePrecisionOffset) -> bool {
    offset.hour <= 23 && offset.minute <= 59
}

/// Returns whether the offset has a text. `Z` has one.
#[inline(always)]
pub fn is_shift(offset: UtcOffsetRecordOrZ) -> bool {
    match offset {
        UtcOffsetRecordOrZ::Z => true,
        UtcOffsetRecordOrZ::Offset(UtcOffsetRecord::MinutePrecision(offset)) => {
            is_minute_clock(offset)
        }
        UtcOffsetRecordOrZ::Offset(UtcOffsetRecord::FullPrecisionOffset(offset)) => {
            let minutes = offset.minute_precision_offset;
            is_clock(
                59,
                minutes.hour,
                minutes.minute,
                offset.second,
                offset.fraction,
            )
        }
        _ => unreachable!(),
    }
}

/// Returns whether there is a date, and this date is a day of the Gregorian calendar, in a year with at most six
/// digits.
fn has_day(date: Option<DateRecord>) -> bool {
    match date {
        None => false,
        Some(date) => is_day(date),
    }
}

/// Returns whether the time and the offset have texts. A time or an offset that the record does not have needs no text.
/// If there is an offset but no time, the function returns `false`.
#[inline(always)]
pub fn has_time(time: Option<TimeRecord>, offset: Option<UtcOffsetRecordOrZ>) -> bool {
    match (time, offset) {
        (None, None) => true,
        (None, Some(_)) => false,
        (Some(time), None) => is_day_time(time),
        (Some(time), Some(offset)) => is_day_time(time) && is_shift(offset),
    }
}

/// Returns whether the bytes are the name of a time zone, as `parse_iana_identifier` accepts it.
fn is_name(name: &[u8]) -> bool {
    TimeZoneParser::from_utf8(name)
        .parse_iana_identifier()
        .is_ok()
}

/// Returns whether the zone has a text.
#[inline(always)]
pub fn is_zone(zone: &TimeZoneRecord<'_, Utf8>) -> bool {
    match zone {
        TimeZoneRecord::Name(name) => is_name(name),
        TimeZoneRecord::Offset(offset) => is_minute_clock(*offset),
        _ => unreachable!(),
    }
}

/// Returns whether there is no zone, or the zone has a text.
#[inline(always)]
fn has_zone(note: &Option<TimeZoneAnnotation<'_, Utf8>>) -> bool {
    match note {
        None => true,
        Some(note) => is_zone(&note.tz),
    }
}

/// Returns whether the bytes are the value of an annotation.
fn is_value(bytes: &[u8]) -> bool {
    let mut in_run = false;
    for byte in bytes {
        if is_annotation_value_component(*byte) {
            in_run = true;
        } else if *byte == b'-' && in_run {
            in_run = false;
        } else {
            return false;
        }
    }
    in_run
}

/// Returns whether there is no calendar, or the calendar has a text.
#[inline(always)]
fn has_calendar(calendar: Option<&[u8]>) -> bool {
    match calendar {
        None => true,
        Some(value) => is_value(value),
    }
}

/// Returns whether the zone and the calendar have texts. A zone or a calendar that the record does not have needs no
/// text.
#[inline(always)]
pub fn has_brackets(parsed: &IxdtfParseRecord<'_, Utf8>) -> bool {
    has_zone(&parsed.tz) && has_calendar(parsed.calendar)
}

/// Returns whether there is a date, and each field has a text.
pub fn is_spelled(parsed: &IxdtfParseRecord<'_, Utf8>) -> bool {
    has_day(parsed.date) && has_time(parsed.time, parsed.offset) && has_brackets(parsed)
}
