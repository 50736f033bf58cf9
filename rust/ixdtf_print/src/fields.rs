// Made by tools/to_rust.py of crates/ixdtf_print/src/fields.rt. Do not edit.

//! Functions that write the fields of a record into a slice.

use crate::digits::{ones_digit, put_digits, put_four, put_fraction, tens_digit};
use crate::put::{put, put_byte, put_each};
use ixdtf::encoding::Utf8;
use ixdtf::records::{
    DateRecord, Fraction, IxdtfParseRecord, MinutePrecisionOffset, Sign, TimeRecord,
    TimeZoneAnnotation, TimeZoneRecord, UtcOffsetRecord, UtcOffsetRecordOrZ,
};

/// Returns the absolute value of the year.
fn distance_of(date: DateRecord) -> u64 {
    u64::from(date.year.unsigned_abs())
}

/// Writes the year at index `at`. Returns the index after it.
#[inline(always)]
pub fn put_year(out: &mut [u8], at: usize, date: DateRecord) -> usize {
    let distance = distance_of(date);
    if date.year < 0 {
        let digits = put_byte(out, at, b'-');
        return put_digits(out, digits, 6, distance);
    }
    if distance <= 9999 {
        return put_four(out, at, distance);
    }
    let digits = put_byte(out, at, b'+');
    put_digits(out, digits, 6, distance)
}

/// Writes the date at index `at`. Returns the index after it.
fn put_date(out: &mut [u8], at: usize, date: DateRecord) -> usize {
    let after_year = put_year(out, at, date);
    put_days(out, after_year, date.month, date.day)
}

/// Writes a month and a day at index `at`, each after a `-`. Returns the index after them.
fn put_days(out: &mut [u8], at: usize, month: u8, day: u8) -> usize {
    put(
        out,
        at,
        &[
            b'-',
            tens_digit(month),
            ones_digit(month),
            b'-',
            tens_digit(day),
            ones_digit(day),
        ],
    )
}

/// Writes the date at index `at`, if there is one. Returns the index after it.
fn put_optional_date(out: &mut [u8], at: usize, date: Option<DateRecord>) -> usize {
    match date {
        None => at,
        Some(date) => put_date(out, at, date),
    }
}

/// Writes a separator, an hour and a minute at index `at`. Returns the index after them.
#[inline(always)]
pub fn put_minutes(out: &mut [u8], at: usize, mark: u8, hour: u8, minute: u8) -> usize {
    put(
        out,
        at,
        &[
            mark,
            tens_digit(hour),
            ones_digit(hour),
            b':',
            tens_digit(minute),
            ones_digit(minute),
        ],
    )
}

/// Writes a separator, an hour, a minute and a second at index `at`. Returns the index after them.
fn put_seconds(out: &mut [u8], at: usize, mark: u8, hour: u8, minute: u8, second: u8) -> usize {
    put(
        out,
        at,
        &[
            mark,
            tens_digit(hour),
            ones_digit(hour),
            b':',
            tens_digit(minute),
            ones_digit(minute),
            b':',
            tens_digit(second),
            ones_digit(second),
        ],
    )
}

/// Writes a separator, an hour, a minute, a second and, if there is one, a fraction at index `at`. Returns the index
/// after them.
fn put_clock(
    out: &mut [u8],
    at: usize,
    mark: u8,
    hour: u8,
    minute: u8,
    second: u8,
    fraction: Option<Fraction>,
) -> usize {
    let point = put_seconds(out, at, mark, hour, minute, second);
    put_fraction(out, point, fraction)
}

/// Writes the time at index `at`, if there is one. Returns the index after it.
fn put_time(out: &mut [u8], at: usize, time: Option<TimeRecord>) -> usize {
    match time {
        None => at,
        Some(time) => put_clock(
            out,
            at,
            b'T',
            time.hour,
            time.minute,
            time.second,
            time.fraction,
        ),
    }
}

/// Returns the byte of a sign.
fn mark_of(sign: Sign) -> u8 {
    match sign {
        Sign::Positive => b'+',
        Sign::Negative => b'-',
    }
}

/// Writes an offset with hours and minutes at index `at`. Returns the index after it.
pub fn put_minute_offset(out: &mut [u8], at: usize, offset: MinutePrecisionOffset) -> usize {
    put_minutes(out, at, mark_of(offset.sign), offset.hour, offset.minute)
}

/// Writes the offset at index `at`, if there is one. Returns the index after it.
#[inline(always)]
pub fn put_offset(out: &mut [u8], at: usize, offset: Option<UtcOffsetRecordOrZ>) -> usize {
    match offset {
        None => at,
        Some(UtcOffsetRecordOrZ::Z) => put_byte(out, at, b'Z'),
        Some(UtcOffsetRecordOrZ::Offset(UtcOffsetRecord::MinutePrecision(offset))) => {
            put_minute_offset(out, at, offset)
        }
        Some(UtcOffsetRecordOrZ::Offset(UtcOffsetRecord::FullPrecisionOffset(offset))) => {
            let minutes = offset.minute_precision_offset;
            let mark = mark_of(minutes.sign);
            put_clock(
                out,
                at,
                mark,
                minutes.hour,
                minutes.minute,
                offset.second,
                offset.fraction,
            )
        }
        _ => unreachable!(),
    }
}

/// Returns what comes before a zone: `[` or `[!`.
pub fn opening_of(critical: bool) -> &'static [u8] {
    if critical {
        b"[!".as_slice()
    } else {
        b"[".as_slice()
    }
}

/// Writes the beginning of the bracket of a zone at index `at`: `[!` if the zone is critical, and otherwise `[`. The
/// two bytes of `[!` are written in one step. Returns the index after the beginning.
fn put_opening(out: &mut [u8], at: usize, critical: bool) -> usize {
    if critical {
        return put(out, at, b"[!");
    }
    put(out, at, b"[")
}

/// Writes the zone at index `at`. Returns the index after it.
#[inline(always)]
pub fn put_zone(out: &mut [u8], at: usize, zone: &TimeZoneRecord<'_, Utf8>) -> usize {
    match zone {
        TimeZoneRecord::Name(name) => put_each(out, at, name),
        TimeZoneRecord::Offset(offset) => put_minute_offset(out, at, *offset),
        _ => unreachable!(),
    }
}

/// Writes the zone in its bracket at index `at`, if there is one. Returns the index after it.
#[inline(always)]
fn put_bracket(out: &mut [u8], at: usize, note: &Option<TimeZoneAnnotation<'_, Utf8>>) -> usize {
    match note {
        None => at,
        Some(note) => {
            let inside = put_opening(out, at, note.critical);
            let end = put_zone(out, inside, &note.tz);
            put_byte(out, end, b']')
        }
    }
}

/// Writes the calendar in its bracket at index `at`, if there is one. Returns the index after it.
#[inline(always)]
fn put_calendar(out: &mut [u8], at: usize, calendar: Option<&[u8]>) -> usize {
    match calendar {
        None => at,
        Some(value) => {
            let inside = put(out, at, b"[u-ca=");
            let end = put_each(out, inside, value);
            put_byte(out, end, b']')
        }
    }
}

/// Writes the zone and the calendar, in their brackets, at index `at`. Returns the index after them.
#[inline(always)]
pub fn put_brackets(out: &mut [u8], at: usize, parsed: &IxdtfParseRecord<'_, Utf8>) -> usize {
    let after_bracket = put_bracket(out, at, &parsed.tz);
    put_calendar(out, after_bracket, parsed.calendar)
}

/// Writes the date, the time and the offset at index `at`. Returns the index after them.
pub fn put_core(out: &mut [u8], at: usize, parsed: &IxdtfParseRecord<'_, Utf8>) -> usize {
    let after_date = put_optional_date(out, at, parsed.date);
    let after_time = put_time(out, after_date, parsed.time);
    put_offset(out, after_time, parsed.offset)
}
