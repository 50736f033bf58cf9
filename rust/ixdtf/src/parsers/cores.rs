// Made by tools/to_rust.py of crates/ixdtf/src/parsers/cores.rt. Do not edit.

//! Functions that read a core into a record. A core is the part of a text before its first `[`.

use crate::Reason;
use crate::encoding::EncodingType;
use crate::parsers::profile::Profile;
use crate::records::{DateRecord, IxdtfParseRecord, TimeRecord, UtcOffsetRecordOrZ};
use crate::classes::{
    is_annotation_open, is_ascii_sign, is_date_time_separator, is_time_designator,
    is_time_separator, is_utc_designator,
};
use crate::cursor::Cursor;
use crate::parsers::date_times::take_fixed_date_time;
use crate::parsers::dates::parse_date;
use crate::parsers::months::{
    parse_month_day_date, parse_month_day_parts, parse_year_month_date, parse_year_month_parts,
};
use crate::parsers::offsets::{AfterCore, offset_from, take_fixed_offset};
use crate::parsers::rfc3339::{parse_internet_date_time, stop_after_offset};
use crate::parsers::time::{
    Clock, TimeShape, WholeTime, parse_after_second, parse_clock, parse_clock_from,
};

/// A type that reads cores of one kind. A core is the part of a text before its first `[`.
///
/// The functions that read complete texts are generic in this type. So no code tests the kind at run time.
pub trait CoreReader {
    /// Reads a core into an empty record. Returns what follows the core: the end of the input or a bracket.
    fn parse_core<'a, T: EncodingType>(
        cursor: &mut Cursor<'a, T>,
        profile: Profile,
        found: &mut IxdtfParseRecord<'a, T>,
    ) -> Result<AfterCore, Reason>;

    /// Returns whether a zone after the core must have the form of RFC 9557, section 4.1.
    fn has_exact_zones() -> bool;
}

/// The reader of a date, with a time and an offset if the text has them.
pub struct DateTimes;

impl CoreReader for DateTimes {
    #[inline(always)]
    fn parse_core<'a, T: EncodingType>(
        cursor: &mut Cursor<'a, T>,
        _profile: Profile,
        found: &mut IxdtfParseRecord<'a, T>,
    ) -> Result<AfterCore, Reason> {
        parse_date_time(cursor, found)
    }

    #[inline(always)]
    fn has_exact_zones() -> bool {
        false
    }
}

/// The reader of a date-time of RFC 3339: a date, a time and an offset.
pub struct InternetDateTimes;

impl CoreReader for InternetDateTimes {
    #[inline(always)]
    fn parse_core<'a, T: EncodingType>(
        cursor: &mut Cursor<'a, T>,
        _profile: Profile,
        found: &mut IxdtfParseRecord<'a, T>,
    ) -> Result<AfterCore, Reason> {
        parse_internet_date_time(cursor, found)?;
        close_core(cursor, stop_after_offset(found.offset))
    }

    #[inline(always)]
    fn has_exact_zones() -> bool {
        true
    }
}

/// The reader of a year and a month. The record has the first day of the month.
pub struct YearMonths;

impl CoreReader for YearMonths {
    #[inline(always)]
    fn parse_core<'a, T: EncodingType>(
        cursor: &mut Cursor<'a, T>,
        _profile: Profile,
        found: &mut IxdtfParseRecord<'a, T>,
    ) -> Result<AfterCore, Reason> {
        let date = parse_year_month_date(cursor)?;
        found.date = Some(date);
        close_core(cursor, Reason::AfterYearMonth)
    }

    #[inline(always)]
    fn has_exact_zones() -> bool {
        false
    }
}

/// The reader of a month and a day. The record has the year 0.
pub struct MonthDays;

impl CoreReader for MonthDays {
    #[inline(always)]
    fn parse_core<'a, T: EncodingType>(
        cursor: &mut Cursor<'a, T>,
        profile: Profile,
        found: &mut IxdtfParseRecord<'a, T>,
    ) -> Result<AfterCore, Reason> {
        let date = parse_month_day_date(cursor, profile)?;
        found.date = Some(date);
        close_core(cursor, Reason::AfterMonthDay)
    }

    #[inline(always)]
    fn has_exact_zones() -> bool {
        false
    }
}

/// The reader of a time, with an offset if the text has one.
pub struct Times;

impl CoreReader for Times {
    #[inline(always)]
    fn parse_core<'a, T: EncodingType>(
        cursor: &mut Cursor<'a, T>,
        profile: Profile,
        found: &mut IxdtfParseRecord<'a, T>,
    ) -> Result<AfterCore, Reason> {
        let start = cursor.rest();
        match cursor.look(Reason::TimeStart)? {
            Some(byte) if is_time_designator(byte) => {
                cursor.advance();
                parse_timed(cursor, Reason::HourStart, found)
            }
            _ => {
                let after = parse_timed(cursor, Reason::TimeStart, found)?;
                check_front(cursor, start, profile)?;
                Ok(after)
            }
        }
    }

    #[inline(always)]
    fn has_exact_zones() -> bool {
        false
    }
}

// ==== Dates and times ====

/// Reads a date into the record, and a time and an offset if the text has them.
#[inline(always)]
fn parse_date_time<'a, T: EncodingType>(
    cursor: &mut Cursor<'a, T>,
    found: &mut IxdtfParseRecord<'a, T>,
) -> Result<AfterCore, Reason> {
    match take_fixed_date_time(cursor) {
        Some((date, whole)) => parse_after_fixed(cursor, date, whole, found),
        None => parse_date_by_parts(cursor, found),
    }
}

/// Reads what follows a date and a time that were read in fixed columns (each digit and separator at its usual index).
/// Writes the date, the time and what follows into the record.
///
/// For speed, `time` is a local variable of this function. If a function that is not inlined wrote `time`, then `time`
/// would be in memory. It would be written byte by byte, and then copied as one block. The copy would have to wait
/// until the bytes are written.
#[inline(always)]
fn parse_after_fixed<'a, T: EncodingType>(
    cursor: &mut Cursor<'a, T>,
    date: DateRecord,
    whole: WholeTime,
    found: &mut IxdtfParseRecord<'a, T>,
) -> Result<AfterCore, Reason> {
    found.date = Some(date);
    let mut time = TimeRecord::default();
    let shape = parse_after_second(
        cursor,
        Clock::Time,
        whole.hour,
        whole.minute,
        whole.second,
        &mut time,
    )?;
    parse_after_time(cursor, shape, time, found)
}

/// Reads a date part by part into the record. If a separator follows, reads a time and an offset too.
#[inline(always)]
fn parse_date_by_parts<'a, T: EncodingType>(
    cursor: &mut Cursor<'a, T>,
    found: &mut IxdtfParseRecord<'a, T>,
) -> Result<AfterCore, Reason> {
    let date = parse_date(cursor)?;
    found.date = Some(date);
    match cursor.look(Reason::AfterDate)? {
        Some(byte) if is_date_time_separator(byte) => {
            cursor.advance();
            parse_timed(cursor, Reason::HourStart, found)
        }
        _ => close_core(cursor, Reason::AfterDate),
    }
}

// ==== Times ====

/// Reads a time into the record, and `Z` or an offset if it follows. The record may already have a date. Returns `first`
/// if the first digit of the time is missing.
#[inline(always)]
fn parse_timed<'a, T: EncodingType>(
    cursor: &mut Cursor<'a, T>,
    first: Reason,
    found: &mut IxdtfParseRecord<'a, T>,
) -> Result<AfterCore, Reason> {
    let mut time = TimeRecord::default();
    let shape = parse_time_of_day(cursor, first, &mut time)?;
    parse_after_time(cursor, shape, time, found)
}

/// Reads a time, and not what follows it. Returns `first` if its first digit is missing.
///
/// For speed, the function works on a second cursor. The second cursor is a local variable, so it can stay in
/// registers. A cursor behind a reference, such as `cursor`, is written to memory at each step.
#[inline(always)]
fn parse_time_of_day<'a, T: EncodingType>(
    cursor: &mut Cursor<'a, T>,
    first: Reason,
    time: &mut TimeRecord,
) -> Result<TimeShape, Reason> {
    let mut here = cursor.fork();
    let read = parse_clock_from(&mut here, Clock::Time, first, time);
    *cursor = here;
    read
}

/// Refuses a time that begins with a month-day or a year-month.
///
/// `start` is the input from the beginning of the time on. On failure, the cursor is after the month-day or the
/// year-month. On success, it does not move. Most times have a colon at index 2. A month-day or a year-month never has
/// one there, so the colon saves both tests.
#[inline(always)]
fn check_front<'a, T: EncodingType>(
    cursor: &mut Cursor<'a, T>,
    start: &'a [T::CodeUnit],
    profile: Profile,
) -> Result<(), Reason> {
    let mut front = cursor.fork_at(start);
    if is_time_separator(front.byte_at(2)) {
        return Ok(());
    }
    if parse_month_day_parts(&mut front, profile).is_ok() {
        *cursor = front;
        return Err(Reason::TimeReadsAsMonthDay);
    }
    let mut again = front.fork_at(start);
    if parse_year_month_parts(&mut again).is_ok() {
        *cursor = again;
        return Err(Reason::TimeReadsAsYearMonth);
    }
    Ok(())
}

/// Writes the time into the record, and reads `Z` or an offset if it follows. `shape` is the shape of the time.
#[inline(always)]
fn parse_after_time<'a, T: EncodingType>(
    cursor: &mut Cursor<'a, T>,
    shape: TimeShape,
    time: TimeRecord,
    found: &mut IxdtfParseRecord<'a, T>,
) -> Result<AfterCore, Reason> {
    found.time = Some(time);
    let stop = Clock::Time.stop_after(shape);
    match cursor.look(stop)? {
        Some(byte) if is_ascii_sign(byte) => {
            cursor.advance();
            parse_signed(cursor, byte, found)
        }
        Some(byte) if is_utc_designator(byte) => {
            cursor.advance();
            found.offset = Some(UtcOffsetRecordOrZ::Z);
            close_core(cursor, Reason::AfterZulu)
        }
        _ => close_core(cursor, stop),
    }
}

/// Reads an offset after its sign.
///
/// If the offset is in fixed columns, has no seconds, and ends the core, it is read in these columns. Otherwise it is
/// read part by part, with a second cursor.
#[inline(always)]
fn parse_signed<'a, T: EncodingType>(
    cursor: &mut Cursor<'a, T>,
    sign: u8,
    found: &mut IxdtfParseRecord<'a, T>,
) -> Result<AfterCore, Reason> {
    if let Some(after) = take_fixed_offset(cursor, sign, &mut found.offset) {
        return Ok(after);
    }
    let mut here = cursor.fork();
    let read = parse_offset_part_by_part(&mut here, sign, found);
    *cursor = here;
    read
}

/// Reads an offset of any form after its sign. It is not inlined, because most texts have their offset in fixed
/// columns.
#[inline(never)]
fn parse_offset_part_by_part<'a, T: EncodingType>(
    cursor: &mut Cursor<'a, T>,
    sign: u8,
    found: &mut IxdtfParseRecord<'a, T>,
) -> Result<AfterCore, Reason> {
    let mut time = TimeRecord::default();
    let shape = parse_clock(cursor, Clock::Offset, &mut time)?;
    let offset = offset_from(sign, shape, time);
    found.offset = Some(UtcOffsetRecordOrZ::Offset(offset));
    close_core(cursor, Clock::Offset.stop_after(shape))
}

/// Expects the end of the input or a `[` after a core. Returns which of the two it is. Returns `stop` for any other code
/// unit.
#[inline(always)]
fn close_core<'a, T: EncodingType>(
    cursor: &mut Cursor<'a, T>,
    stop: Reason,
) -> Result<AfterCore, Reason> {
    match cursor.look(stop)? {
        None => Ok(AfterCore::End),
        Some(byte) if is_annotation_open(byte) => {
            cursor.advance();
            Ok(AfterCore::Bracket)
        }
        Some(_) => Err(stop),
    }
}
