// Made by tools/to_rust.py of crates/ixdtf_print/src/length.rt. Do not edit.

//! The length of the canonical text of a record.

use ixdtf::encoding::Utf8;
use ixdtf::records::{
    DateRecord, Fraction, IxdtfParseRecord, TimeRecord, TimeZoneAnnotation, TimeZoneRecord,
    UtcOffsetRecord, UtcOffsetRecordOrZ,
};

/// An upper bound of the number of bytes of a canonical text, without the name of its zone and without the value of its
/// calendar. The date, the time and the offset together have at most 543 bytes. A zone that is an offset has at most 9
/// bytes with its bracket, as in `[!+01:00]`, and the bracket of a name has at most 3 bytes without the name. The
/// bracket of a calendar has 7 bytes without the value.
const MOST_BESIDES_NAMES: usize = 560;

/// Returns the number of bytes of the fraction, with its point.
#[must_use]
pub fn fraction_length(fraction: Option<Fraction>) -> u16 {
    match fraction {
        None => 0,
        Some(fraction) => 1 + u16::from(fraction.digit_count()),
    }
}

/// Returns the number of bytes of the date.
fn date_length(date: Option<DateRecord>) -> u16 {
    match date {
        None => 0,
        Some(date) => {
            if 0 <= date.year && date.year <= 9999 {
                10
            } else {
                13
            }
        }
    }
}

/// Returns the number of bytes of the time, with its `T`.
fn time_length(time: Option<TimeRecord>) -> u16 {
    match time {
        None => 0,
        Some(time) => 9 + fraction_length(time.fraction),
    }
}

/// Returns the number of bytes of the offset.
#[inline(always)]
#[must_use]
pub fn shift_length(offset: Option<UtcOffsetRecordOrZ>) -> u16 {
    match offset {
        None => 0,
        Some(UtcOffsetRecordOrZ::Z) => 1,
        Some(UtcOffsetRecordOrZ::Offset(UtcOffsetRecord::MinutePrecision(_))) => 6,
        Some(UtcOffsetRecordOrZ::Offset(UtcOffsetRecord::FullPrecisionOffset(offset))) => {
            9 + fraction_length(offset.fraction)
        }
        _ => unreachable!(),
    }
}

/// Returns the number of bytes of the zone, without its bracket.
#[inline(always)]
#[must_use]
pub fn length_of_zone(zone: &TimeZoneRecord<'_, Utf8>) -> u128 {
    match zone {
        TimeZoneRecord::Name(name) => name.len() as u128,
        TimeZoneRecord::Offset(_) => 6,
        _ => unreachable!(),
    }
}

/// Returns the number of bytes of the bracket with the zone.
#[inline(always)]
fn bracket_length(note: &Option<TimeZoneAnnotation<'_, Utf8>>) -> u128 {
    match note {
        None => 0,
        Some(note) => {
            if note.critical {
                3 + length_of_zone(&note.tz)
            } else {
                2 + length_of_zone(&note.tz)
            }
        }
    }
}

/// Returns the number of bytes of the bracket with the calendar.
#[inline(always)]
fn calendar_length(calendar: Option<&[u8]>) -> u128 {
    match calendar {
        None => 0,
        Some(value) => 7 + value.len() as u128,
    }
}

/// Returns the number of bytes of the zone and the calendar, with their brackets.
#[inline(always)]
#[must_use]
pub fn brackets_length(parsed: &IxdtfParseRecord<'_, Utf8>) -> u128 {
    bracket_length(&parsed.tz) + calendar_length(parsed.calendar)
}

/// Returns the number of bytes of the date, the time and the offset.
#[must_use]
pub fn core_length(parsed: &IxdtfParseRecord<'_, Utf8>) -> u16 {
    date_length(parsed.date) + time_length(parsed.time) + shift_length(parsed.offset)
}

/// Tests quickly whether the canonical text of a record fits into `room` bytes. The record must have a canonical text.
///
/// `true` means that the text fits. `false` means that the caller must count the length, because the text may fit or
/// not. `MOST_BESIDES_NAMES` bytes of `room` are enough for everything except the name of the zone and the value of the
/// calendar. The result is `true` if `room` is at least `MOST_BESIDES_NAMES`, and if the name and the value each have
/// at most half of the remaining bytes of `room`.
#[inline(always)]
#[must_use]
pub fn has_plenty(parsed: &IxdtfParseRecord<'_, Utf8>, room: usize) -> bool {
    if room < MOST_BESIDES_NAMES {
        return false;
    }
    let half = (room - MOST_BESIDES_NAMES) / 2;
    is_short_bracket(&parsed.tz, half) && is_short_calendar(parsed.calendar, half)
}

/// Returns `true` only if the bracket of a zone has at most `most + 9` bytes.
#[inline(always)]
fn is_short_bracket(note: &Option<TimeZoneAnnotation<'_, Utf8>>, most: usize) -> bool {
    match note {
        None => true,
        Some(note) => is_short_zone(&note.tz, most),
    }
}

/// Returns `true` only if a zone has at most `most + 6` bytes.
#[inline(always)]
fn is_short_zone(zone: &TimeZoneRecord<'_, Utf8>, most: usize) -> bool {
    match zone {
        TimeZoneRecord::Name(name) => name.len() <= most,
        TimeZoneRecord::Offset(_) => true,
        _ => unreachable!(),
    }
}

/// Returns `true` only if the bracket of a calendar has at most `most + 7` bytes.
#[inline(always)]
fn is_short_calendar(calendar: Option<&[u8]>, most: usize) -> bool {
    match calendar {
        None => true,
        Some(value) => value.len() <= most,
    }
}
