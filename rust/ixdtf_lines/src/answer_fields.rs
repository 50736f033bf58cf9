// Made by tools/to_rust.py of crates/ixdtf_answers/src/answer_fields.rt. Do not edit.

//! Functions that add fields to the text of an answer. The fields show the value that a reader returned.
//!
//! Each function that adds bytes writes them to the array at the index `at`, and returns the index after them.

use ixdtf::Instant;
use ixdtf::encoding::Utf8;
use ixdtf::records::{
    DateDurationRecord, DateRecord, DurationParseRecord, Fraction, FullPrecisionOffset,
    MinutePrecisionOffset, Sign, TimeDurationRecord, TimeRecord, TimeZoneAnnotation,
    TimeZoneRecord, UtcOffsetRecord, UtcOffsetRecordOrZ,
};
use ixdtf_buffers::adding::{ROOM, add_array, add_byte, add_number, add_signed, add_small};
use ixdtf_print::put_digits;

/// Adds a comma and a number below 256.
fn add_small_behind_comma(room: &mut [u8; ROOM], at: usize, number: u8) -> usize {
    let digits = add_byte(room, at, b',');
    add_small(room, digits, number)
}

/// Adds a comma and a number.
fn add_number_behind_comma(room: &mut [u8; ROOM], at: usize, number: u64) -> usize {
    let digits = add_byte(room, at, b',');
    add_number(room, digits, number)
}

/// Adds the year, month and day, if there is a date.
pub fn add_date_field(room: &mut [u8; ROOM], at: usize, date: Option<DateRecord>) -> usize {
    let Some(date) = date else {
        return at;
    };
    let year = add_array(room, at, b" date=");
    let month = add_signed(room, year, date.year);
    let day = add_small_behind_comma(room, month, date.month);
    add_small_behind_comma(room, day, date.day)
}

/// Adds the time and its fraction, if there is a time.
pub fn add_time_field(room: &mut [u8; ROOM], at: usize, time: Option<TimeRecord>) -> usize {
    let Some(time) = time else {
        return at;
    };
    let fraction = time.fraction;
    let point = add_clock(room, at, time);
    add_fraction(room, point, fraction)
}

/// Adds the hour, minute and second.
fn add_clock(room: &mut [u8; ROOM], at: usize, time: TimeRecord) -> usize {
    let hour = add_array(room, at, b" time=");
    let minute = add_small(room, hour, time.hour);
    let second = add_small_behind_comma(room, minute, time.minute);
    add_small_behind_comma(room, second, time.second)
}

/// Adds a point and the nanoseconds of the fraction in nine digits, if there is a fraction.
fn add_fraction(room: &mut [u8; ROOM], at: usize, fraction: Option<Fraction>) -> usize {
    match fraction {
        None => at,
        Some(fraction) => {
            let digits = add_byte(room, at, b'.');
            let nanoseconds = u64::from(fraction.to_truncated_nanoseconds());
            put_digits(room, digits, 9, nanoseconds)
        }
    }
}

/// If there is an offset, adds it. The offset is `Z`, or has a sign, hours, minutes, and perhaps seconds and a fraction.
pub fn add_offset_field(
    room: &mut [u8; ROOM],
    at: usize,
    offset: Option<UtcOffsetRecordOrZ>,
) -> usize {
    match offset {
        None => at,
        Some(UtcOffsetRecordOrZ::Offset(offset)) => add_offset(room, at, offset),
        Some(UtcOffsetRecordOrZ::Z) => add_array(room, at, b" offset=Z"),
    }
}

/// Adds the field of an offset that is not `Z`.
pub fn add_offset(room: &mut [u8; ROOM], at: usize, offset: UtcOffsetRecord) -> usize {
    let sign = add_array(room, at, b" offset=");
    match offset {
        UtcOffsetRecord::MinutePrecision(offset) => add_minute_offset(room, sign, offset),
        UtcOffsetRecord::FullPrecisionOffset(offset) => add_full_offset(room, sign, offset),
        _ => unreachable!(),
    }
}

/// Adds the sign, hours and minutes.
fn add_minute_offset(room: &mut [u8; ROOM], at: usize, offset: MinutePrecisionOffset) -> usize {
    let hour = add_byte(room, at, mark_of(offset.sign));
    let minute = add_small(room, hour, offset.hour);
    add_small_behind_comma(room, minute, offset.minute)
}

/// Adds the sign, hours, minutes and seconds, with the fraction.
fn add_full_offset(room: &mut [u8; ROOM], at: usize, offset: FullPrecisionOffset) -> usize {
    let second = offset.second;
    let fraction = offset.fraction;
    let comma = add_minute_offset(room, at, offset.minute_precision_offset);
    let point = add_small_behind_comma(room, comma, second);
    add_fraction(room, point, fraction)
}

/// If the zone has a name, adds the label of its field, such as ` tz=`, but not the name. The caller writes the name. If the zone is
/// an offset, adds the complete field.
pub fn add_zone_field_front(
    room: &mut [u8; ROOM],
    at: usize,
    note: &Option<TimeZoneAnnotation<'_, Utf8>>,
) -> usize {
    match note {
        None => at,
        Some(note) => add_zone_front(room, at, note.critical, &note.tz),
    }
}

/// If the zone has a name, adds the label of its field, such as ` tz=`, but not the name. The caller writes the name. If the zone is
/// an offset, adds the complete field.
pub fn add_zone_front(
    room: &mut [u8; ROOM],
    at: usize,
    critical: bool,
    zone: &TimeZoneRecord<'_, Utf8>,
) -> usize {
    let label = add_zone_label(room, at, critical);
    match zone {
        TimeZoneRecord::Name(_) => label,
        TimeZoneRecord::Offset(offset) => add_minute_offset(room, label, *offset),
        _ => unreachable!(),
    }
}

/// Adds the label of the field of a zone, with `!` if the zone is critical.
fn add_zone_label(room: &mut [u8; ROOM], at: usize, critical: bool) -> usize {
    if critical {
        add_array(room, at, b" tz=!")
    } else {
        add_array(room, at, b" tz=")
    }
}

/// Adds the seconds and the nanoseconds of an instant.
pub fn add_instant(room: &mut [u8; ROOM], at: usize, instant: Instant) -> usize {
    let seconds = add_array(room, at, b" seconds=");
    let label = add_seconds(room, seconds, instant.seconds);
    let nanoseconds = add_array(room, label, b" nanoseconds=");
    add_number(room, nanoseconds, u64::from(instant.nanoseconds))
}

/// Adds a number of seconds, with a `-` if it is below zero.
fn add_seconds(room: &mut [u8; ROOM], at: usize, seconds: i64) -> usize {
    let number = seconds.unsigned_abs();
    if seconds < 0 {
        let magnitude = add_byte(room, at, b'-');
        add_number(room, magnitude, number)
    } else {
        add_number(room, at, number)
    }
}

/// Adds the sign of a duration. If the duration has a date part, adds the years, months, weeks and days. If the duration has a time
/// part, adds the hours of this part. A time part can also have minutes, seconds and a fraction. The function adds each of these if
/// the time part has it.
pub fn add_duration(room: &mut [u8; ROOM], at: usize, duration: DurationParseRecord) -> usize {
    let date = duration.date;
    let time = duration.time;
    let after_sign = add_sign_field(room, at, duration.sign);
    let after_date = add_date_duration_field(room, after_sign, date);
    add_time_duration_field(room, after_date, time)
}

/// Adds the sign of a duration.
fn add_sign_field(room: &mut [u8; ROOM], at: usize, sign: Sign) -> usize {
    let mark = add_array(room, at, b" sign=");
    add_byte(room, mark, mark_of(sign))
}

/// Adds the years, months, weeks and days of a duration, if it has a date.
fn add_date_duration_field(
    room: &mut [u8; ROOM],
    at: usize,
    date: Option<DateDurationRecord>,
) -> usize {
    let Some(date) = date else {
        return at;
    };
    let years = add_array(room, at, b" date=");
    let months = add_number(room, years, u64::from(date.years));
    let weeks = add_number_behind_comma(room, months, u64::from(date.months));
    let days = add_number_behind_comma(room, weeks, u64::from(date.weeks));
    add_number_behind_comma(room, days, date.days)
}

/// Adds the time of a duration, if it has one.
fn add_time_duration_field(
    room: &mut [u8; ROOM],
    at: usize,
    time: Option<TimeDurationRecord>,
) -> usize {
    let Some(time) = time else {
        return at;
    };
    let fraction = last_fraction(&time);
    let point = add_time_numbers(room, at, &time);
    add_fraction(room, point, fraction)
}

/// Adds the hours of a duration, and the minutes and seconds that it has.
fn add_time_numbers(room: &mut [u8; ROOM], at: usize, time: &TimeDurationRecord) -> usize {
    let first = add_array(room, at, b" time=");
    match time {
        TimeDurationRecord::Hours { hours, .. } => add_number(room, first, *hours),
        TimeDurationRecord::Minutes { hours, minutes, .. } => {
            let second = add_number(room, first, *hours);
            add_number_behind_comma(room, second, *minutes)
        }
        TimeDurationRecord::Seconds {
            hours,
            minutes,
            seconds,
            ..
        } => {
            let second = add_number(room, first, *hours);
            let third = add_number_behind_comma(room, second, *minutes);
            add_number_behind_comma(room, third, *seconds)
        }
    }
}

/// Returns the fraction of the last number of a duration's time, if it has a fraction.
fn last_fraction(time: &TimeDurationRecord) -> Option<Fraction> {
    match time {
        TimeDurationRecord::Hours { fraction, .. } => *fraction,
        TimeDurationRecord::Minutes { fraction, .. } => *fraction,
        TimeDurationRecord::Seconds { fraction, .. } => *fraction,
    }
}

/// Returns the byte `-` or `+` of the sign.
fn mark_of(sign: Sign) -> u8 {
    match sign {
        Sign::Negative => b'-',
        Sign::Positive => b'+',
    }
}
