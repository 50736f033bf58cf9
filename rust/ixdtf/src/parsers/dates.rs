// Made by tools/to_rust.py of crates/ixdtf_times/src/dates.rt. Do not edit.

//! Functions that read dates.

use crate::Reason;
use crate::encoding::EncodingType;
use crate::records::DateRecord;
use crate::classes::{is_ascii_sign, is_hyphen, two_digit_number};
use crate::cursor::Cursor;

/// Reads a date: in ten or eight fixed columns if the text fits them, and otherwise part by part.
#[inline(always)]
pub fn parse_date<'a, T: EncodingType>(cursor: &mut Cursor<'a, T>) -> Result<DateRecord, Reason> {
    match take_fixed_date(cursor) {
        Some(read) => read,
        None => parse_date_parts(cursor),
    }
}

// ==== In fixed columns ====

/// Returns the first day of a month. The month is not checked.
#[inline(always)]
pub fn first_day(year: u16, month: u8) -> DateRecord {
    DateRecord {
        year: i32::from(year),
        month,
        day: 1,
    }
}

/// Returns whether the month is 1 to 12, and has the day.
#[inline(always)]
pub fn is_date(date: DateRecord) -> bool {
    date.month >= 1 && date.month <= 12 && has_day(date.year, date.month, date.day)
}

/// Returns the date in the first ten columns, or `None` if a column does not fit. The month and the day are not
/// checked.
#[inline(always)]
pub fn fixed_date<'a, T: EncodingType>(cursor: &mut Cursor<'a, T>) -> Option<DateRecord> {
    if cursor.remaining() < 10 {
        return None;
    }
    let year = fixed_year(cursor)?;
    cursor.fixed_letter(4, b'-')?;
    fixed_days(cursor, year)
}

/// Reads the date in the first ten columns, or in the first eight if it has no hyphens.
///
/// If only the year fits, the rest of the date is read part by part. Returns `None`, and consumes nothing, if the year
/// does not fit, or if fewer than eight code units remain.
#[inline(always)]
fn take_fixed_date<'a, T: EncodingType>(
    cursor: &mut Cursor<'a, T>,
) -> Option<Result<DateRecord, Reason>> {
    if cursor.remaining() < 8 {
        return None;
    }
    let year = fixed_year(cursor)?;
    if is_hyphen(cursor.byte_at(4)) {
        if let Some(date) = fixed_days(cursor, year) {
            return Some(take_date(cursor, date, 7, 10));
        }
    } else if let Some(date) = fixed_basic_days(cursor, year) {
        return Some(take_date(cursor, date, 6, 8));
    }
    cursor.advance_by(4);
    Some(parse_days(cursor, year))
}

/// Consumes a date and checks it. `month_end` is the index directly after its month, and `day_end` the index directly after
/// its day.
///
/// If the month is not 1 to 12, only the code units up to the end of the month are consumed.
#[inline(always)]
fn take_date<'a, T: EncodingType>(
    cursor: &mut Cursor<'a, T>,
    date: DateRecord,
    month_end: usize,
    day_end: usize,
) -> Result<DateRecord, Reason> {
    if let Err(stop) = check_month(date.month, Reason::MonthRange) {
        cursor.advance_by(month_end);
        return Err(stop);
    }
    cursor.advance_by(day_end);
    check_date(date.year, date.month, date.day)
}

/// Returns the year in the first four columns, or `None` if one of them is not a digit.
#[inline(always)]
pub fn fixed_year<'a, T: EncodingType>(cursor: &mut Cursor<'a, T>) -> Option<u16> {
    let century = cursor.fixed_number(0)?;
    let year = cursor.fixed_number(2)?;
    Some(100 * u16::from(century) + u16::from(year))
}

/// Reads the month and the day in their columns of `YYYY-MM-DD`, and returns the date with the year `year`. Returns `None`
/// if a column does not fit. The month and the day are not checked.
#[inline(always)]
fn fixed_days<'a, T: EncodingType>(cursor: &mut Cursor<'a, T>, year: u16) -> Option<DateRecord> {
    if cursor.remaining() < 10 {
        return None;
    }
    let month = cursor.fixed_number(5)?;
    cursor.fixed_letter(7, b'-')?;
    let day = cursor.fixed_number(8)?;
    Some(DateRecord {
        year: i32::from(year),
        month,
        day,
    })
}

/// Reads the month and the day in their columns of `YYYYMMDD`, and returns the date with the year `year`. Returns `None` if
/// a column does not fit. The month and the day are not checked.
#[inline(always)]
fn fixed_basic_days<'a, T: EncodingType>(
    cursor: &mut Cursor<'a, T>,
    year: u16,
) -> Option<DateRecord> {
    let month = cursor.fixed_number(4)?;
    let day = cursor.fixed_number(6)?;
    Some(DateRecord {
        year: i32::from(year),
        month,
        day,
    })
}

// ==== Part by part ====

/// Reads a date part by part.
#[inline(always)]
fn parse_date_parts<'a, T: EncodingType>(cursor: &mut Cursor<'a, T>) -> Result<DateRecord, Reason> {
    let year = parse_date_year(cursor)?;
    let (month, hyphened) = parse_month(cursor, Reason::AfterYear)?;
    parse_day(cursor, year, month, hyphened)
}

/// Reads the month and the day after a year of four digits, part by part.
#[inline(always)]
fn parse_days<'a, T: EncodingType>(
    cursor: &mut Cursor<'a, T>,
    year: u16,
) -> Result<DateRecord, Reason> {
    let (month, hyphened) = parse_month(cursor, Reason::AfterYear)?;
    parse_day(cursor, i32::from(year), month, hyphened)
}

// ==== Years ====

/// Reads a year: four digits, or a sign and six digits.
#[inline(always)]
pub fn parse_date_year<'a, T: EncodingType>(cursor: &mut Cursor<'a, T>) -> Result<i32, Reason> {
    match cursor.look(Reason::YearStart)? {
        None => Err(Reason::YearStart),
        Some(byte) if byte.is_ascii_digit() => {
            cursor.advance();
            parse_four_digit_year(cursor, byte)
        }
        Some(byte) if is_ascii_sign(byte) => {
            cursor.advance();
            parse_extended_year(cursor, byte)
        }
        Some(_) => Err(Reason::YearStart),
    }
}

/// Reads the last three digits of a year with four digits.
#[inline(always)]
fn parse_four_digit_year<'a, T: EncodingType>(
    cursor: &mut Cursor<'a, T>,
    thousands: u8,
) -> Result<i32, Reason> {
    let below_thousand = parse_three_digits(cursor, Reason::YearDigits)?;
    Ok((1000 * u32::from(thousands - b'0') + below_thousand) as i32)
}

/// Reads the six digits of a year with a sign.
#[inline(always)]
fn parse_extended_year<'a, T: EncodingType>(
    cursor: &mut Cursor<'a, T>,
    sign: u8,
) -> Result<i32, Reason> {
    let value = parse_six_digits(cursor)?;
    if !is_hyphen(sign) {
        return Ok(value as i32);
    }
    if value == 0 {
        return Err(Reason::MinusZeroYear);
    }
    Ok(-(value as i32))
}

/// Reads six digits, two by two, and returns their number.
#[inline(always)]
fn parse_six_digits<'a, T: EncodingType>(cursor: &mut Cursor<'a, T>) -> Result<u32, Reason> {
    let digits = Reason::ExtendedYearDigits;
    let high = cursor.two_digits(digits, digits)?;
    let middle = cursor.two_digits(digits, digits)?;
    let low = cursor.two_digits(digits, digits)?;
    Ok(10_000 * u32::from(high) + 100 * u32::from(middle) + u32::from(low))
}

/// Consumes three digits, and returns their number. Returns `stop` if a digit is missing.
#[inline(always)]
fn parse_three_digits<'a, T: EncodingType>(
    cursor: &mut Cursor<'a, T>,
    stop: Reason,
) -> Result<u32, Reason> {
    let hundreds = cursor.next_digit(stop)?;
    let tens = cursor.next_digit(stop)?;
    let ones = cursor.next_digit(stop)?;
    Ok(100 * u32::from(hundreds - b'0') + 10 * u32::from(tens - b'0') + u32::from(ones - b'0'))
}

// ==== Months and days ====

/// Consumes a hyphen, if one is next, and returns whether it did.
///
/// If a digit is next, returns `false` and consumes nothing. Otherwise returns `stop`.
#[inline(always)]
pub fn take_hyphen<'a, T: EncodingType>(
    cursor: &mut Cursor<'a, T>,
    stop: Reason,
) -> Result<bool, Reason> {
    match cursor.look(stop)? {
        None => Err(stop),
        Some(byte) if is_hyphen(byte) => {
            cursor.advance();
            Ok(true)
        }
        Some(byte) if byte.is_ascii_digit() => Ok(false),
        Some(_) => Err(stop),
    }
}

/// Reads a month after a year. Returns the month, and whether a hyphen is before it. Returns `after_year` if neither a
/// hyphen nor a digit follows the year.
#[inline(always)]
pub fn parse_month<'a, T: EncodingType>(
    cursor: &mut Cursor<'a, T>,
    after_year: Reason,
) -> Result<(u8, bool), Reason> {
    let hyphened = take_hyphen(cursor, after_year)?;
    let tens = cursor.next_digit(Reason::MonthDigits)?;
    let ones = cursor.next_digit(Reason::MonthDigits)?;
    let month = check_month(two_digit_number(tens, ones), Reason::MonthRange)?;
    Ok((month, hyphened))
}

/// Reads the day after a month. A hyphen must be before it if one is before the month.
#[inline(always)]
fn parse_day<'a, T: EncodingType>(
    cursor: &mut Cursor<'a, T>,
    year: i32,
    month: u8,
    hyphened: bool,
) -> Result<DateRecord, Reason> {
    take_separator(cursor, hyphened)?;
    let day = cursor.two_digits(Reason::DayDigits, Reason::DayDigits)?;
    check_date(year, month, day)
}

/// Consumes the hyphen after a month, if a hyphen is before the month. Otherwise tests that a digit is next, and consumes
/// nothing.
#[inline(always)]
fn take_separator<'a, T: EncodingType>(
    cursor: &mut Cursor<'a, T>,
    hyphened: bool,
) -> Result<(), Reason> {
    if hyphened {
        return match cursor.look(Reason::AfterHyphenedMonth)? {
            Some(byte) if is_hyphen(byte) => {
                cursor.advance();
                Ok(())
            }
            _ => Err(Reason::AfterHyphenedMonth),
        };
    }
    match cursor.look(Reason::AfterBasicMonth)? {
        Some(byte) if byte.is_ascii_digit() => Ok(()),
        _ => Err(Reason::AfterBasicMonth),
    }
}

/// Returns the month if it is 1 to 12, and otherwise `stop`.
#[inline(always)]
pub fn check_month(month: u8, stop: Reason) -> Result<u8, Reason> {
    if month < 1 || month > 12 {
        return Err(stop);
    }
    Ok(month)
}

/// Returns the date if the day exists in this month of this year, and otherwise `DayRange`. The month is not checked.
#[inline(always)]
pub fn check_date(year: i32, month: u8, day: u8) -> Result<DateRecord, Reason> {
    if !has_day(year, month, day) {
        return Err(Reason::DayRange);
    }
    Ok(DateRecord { year, month, day })
}

/// Returns whether the month of the year has the day. Every month has the days 1 to 28.
#[inline(always)]
pub fn has_day(year: i32, month: u8, day: u8) -> bool {
    (day >= 1 && day <= 28) || (day > 28 && day <= days_in_month(year, month))
}

/// Returns the number of days of a month in the Gregorian calendar.
#[inline(always)]
pub fn days_in_month(year: i32, month: u8) -> u8 {
    match month {
        2 => { if is_leap_year(year) { 29 } else { 28 } }
        4 | 6 | 9 | 11 => 30,
        _ => 31,
    }
}

/// Returns whether February has 29 days in this year.
#[inline(always)]
fn is_leap_year(year: i32) -> bool {
    let distance = year.unsigned_abs();
    (distance % 4 == 0 && distance % 100 != 0) || distance % 400 == 0
}
