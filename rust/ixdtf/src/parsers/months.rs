// Made by tools/to_rust.py of crates/ixdtf_times/src/months.rt. Do not edit.

//! Functions that read year-months and month-days.

use crate::parsers::dates::{
    check_month, days_in_month, first_day, fixed_year, parse_date_year, parse_month, take_hyphen,
};
use crate::Reason;
use crate::encoding::EncodingType;
use crate::parsers::profile::Profile;
use crate::records::DateRecord;
use crate::classes::is_hyphen;
use crate::cursor::Cursor;

// ==== Year-months ====

/// Reads a year-month, and returns it as a date with day 1.
///
/// The function first tries to read seven or six fixed columns. If a column does not fit, the function reads the
/// year-month part by part.
#[inline(always)]
pub fn parse_year_month_date<'a, T: EncodingType>(
    cursor: &mut Cursor<'a, T>,
) -> Result<DateRecord, Reason> {
    match take_fixed_year_month(cursor) {
        Some(first) => check_year_month(first),
        None => parse_year_month_parts(cursor),
    }
}

/// Returns the first day of a year-month if its month is 1 to 12, and otherwise `MonthRange`.
#[inline(always)]
fn check_year_month(first: DateRecord) -> Result<DateRecord, Reason> {
    check_month(first.month, Reason::MonthRange)?;
    Ok(first)
}

/// Consumes the year-month in the first seven columns, or in the first six if it has no hyphen, as a date with day 1.
///
/// Returns `None`, and consumes nothing, if a column does not fit. The month is not checked.
#[inline(always)]
fn take_fixed_year_month<'a, T: EncodingType>(cursor: &mut Cursor<'a, T>) -> Option<DateRecord> {
    if cursor.remaining() < 6 {
        return None;
    }
    let year = fixed_year(cursor)?;
    if is_hyphen(cursor.byte_at(4)) {
        if cursor.remaining() < 7 {
            return None;
        }
        let first = fixed_month_of(cursor, year, 5)?;
        cursor.advance_by(7);
        return Some(first);
    }
    let first = fixed_month_of(cursor, year, 4)?;
    cursor.advance_by(6);
    Some(first)
}

/// Returns the first day of a month of the year. The two digits of the month are at index `place` and at the next
/// index. Returns `None` if they are not digits. The month is not checked.
#[inline(always)]
fn fixed_month_of<'a, T: EncodingType>(
    cursor: &mut Cursor<'a, T>,
    year: u16,
    place: usize,
) -> Option<DateRecord> {
    let month = cursor.fixed_number(place)?;
    Some(first_day(year, month))
}

/// Reads a year-month part by part.
#[inline(always)]
pub fn parse_year_month_parts<'a, T: EncodingType>(
    cursor: &mut Cursor<'a, T>,
) -> Result<DateRecord, Reason> {
    let year = parse_date_year(cursor)?;
    let (month, _) = parse_month(cursor, Reason::AfterYearInYearMonth)?;
    Ok(DateRecord {
        year,
        month,
        day: 1,
    })
}

// ==== Month-days ====

/// Reads a month-day, and returns it as a date with year 0. Two hyphens can be before the month-day.
///
/// The function first tries to read five or four fixed columns. If a column does not fit, the function reads the
/// month-day part by part.
#[inline(always)]
pub fn parse_month_day_date<'a, T: EncodingType>(
    cursor: &mut Cursor<'a, T>,
    profile: Profile,
) -> Result<DateRecord, Reason> {
    if cursor.remaining() < 4 {
        return parse_month_day_parts(cursor, profile);
    }
    if !is_hyphen(cursor.byte_at(0)) {
        return parse_month_day_at(cursor, profile, 0, Reason::MonthDayStart);
    }
    if is_hyphen(cursor.byte_at(1)) {
        return parse_month_day_at(cursor, profile, 2, Reason::MonthDayMonthDigits);
    }
    parse_month_day_parts(cursor, profile)
}

/// Reads the month-day whose month begins at index `start`, in fixed columns if they fit. If the month does not fit,
/// everything from `start` on is read part by part. If only the day does not fit, the text after the month is read part
/// by part.
#[inline(always)]
fn parse_month_day_at<'a, T: EncodingType>(
    cursor: &mut Cursor<'a, T>,
    profile: Profile,
    start: usize,
    first: Reason,
) -> Result<DateRecord, Reason> {
    let Some(month) = cursor.fixed_number(start) else {
        cursor.advance_by(start);
        return parse_unmarked(cursor, profile, first);
    };
    if let Err(stop) = check_month(month, Reason::MonthDayMonthRange) {
        cursor.advance_by(start + 2);
        return Err(stop);
    }
    if is_hyphen(cursor.byte_at(start + 2)) {
        if let Some(day) = fixed_day(cursor, start + 3) {
            cursor.advance_by(start + 5);
            return check_month_day(profile, month, day);
        }
    } else if let Some(day) = fixed_day(cursor, start + 2) {
        cursor.advance_by(start + 4);
        return check_month_day(profile, month, day);
    }
    cursor.advance_by(start + 2);
    parse_day_of_month(cursor, profile, month)
}

/// Returns the number of the two digits of a day at index `place` and at the next index, or `None` if they are not
/// digits. The day is not checked.
#[inline(always)]
fn fixed_day<'a, T: EncodingType>(cursor: &mut Cursor<'a, T>, place: usize) -> Option<u8> {
    if cursor.remaining() < place + 2 {
        return None;
    }
    cursor.fixed_number(place)
}

/// Reads a month-day part by part.
#[inline(always)]
pub fn parse_month_day_parts<'a, T: EncodingType>(
    cursor: &mut Cursor<'a, T>,
    profile: Profile,
) -> Result<DateRecord, Reason> {
    take_marks(cursor)?;
    parse_unmarked(cursor, profile, Reason::MonthDayMonthDigits)
}

/// Reads a month-day part by part, after the two hyphens that can be before its month.
#[inline(always)]
fn parse_unmarked<'a, T: EncodingType>(
    cursor: &mut Cursor<'a, T>,
    profile: Profile,
    first: Reason,
) -> Result<DateRecord, Reason> {
    let month = cursor.two_digits(first, Reason::MonthDayMonthDigits)?;
    check_month(month, Reason::MonthDayMonthRange)?;
    parse_day_of_month(cursor, profile, month)
}

/// Reads the day after a month. A hyphen can be before it.
#[inline(always)]
fn parse_day_of_month<'a, T: EncodingType>(
    cursor: &mut Cursor<'a, T>,
    profile: Profile,
    month: u8,
) -> Result<DateRecord, Reason> {
    take_hyphen(cursor, Reason::AfterMonthDayMonth)?;
    let day = cursor.two_digits(Reason::MonthDayDayDigits, Reason::MonthDayDayDigits)?;
    check_month_day(profile, month, day)
}

/// If a hyphen is next, consumes it and a second hyphen, and returns `true`. If a digit is next, consumes nothing, and
/// returns `false`.
///
/// Returns `MonthDayStart` if neither a hyphen nor a digit is next. Returns `MonthDayHyphen` if a hyphen is next, and no
/// second hyphen follows it.
#[inline(always)]
fn take_marks<'a, T: EncodingType>(cursor: &mut Cursor<'a, T>) -> Result<bool, Reason> {
    if !take_hyphen(cursor, Reason::MonthDayStart)? {
        return Ok(false);
    }
    match cursor.look(Reason::MonthDayHyphen)? {
        Some(byte) if is_hyphen(byte) => {
            cursor.advance();
            Ok(true)
        }
        _ => Err(Reason::MonthDayHyphen),
    }
}

/// Returns the month-day if its month has the day in some year, and otherwise `MonthDayRange`. Day 0 is accepted too,
/// but not under the strict profile.
#[inline(always)]
pub fn check_month_day(profile: Profile, month: u8, day: u8) -> Result<DateRecord, Reason> {
    if !has_month_day(profile, month, day) {
        return Err(Reason::MonthDayRange);
    }
    Ok(DateRecord {
        year: 0,
        month,
        day,
    })
}

/// Returns whether the month has the day in some year. This is so exactly if it has the day in a leap year, such as the
/// year 0. Returns true for day 0 too, but not under the strict profile. Every month has the days 1 to 28.
#[inline(always)]
fn has_month_day(profile: Profile, month: u8, day: u8) -> bool {
    day >= profile.least_day() && (day <= 28 || day <= days_in_month(0, month))
}
