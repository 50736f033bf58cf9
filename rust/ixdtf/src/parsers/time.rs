// Made by tools/to_rust.py of crates/ixdtf_times/src/time.rt. Do not edit.

//! Functions that read times of day, and offsets after their sign. Both are written in the same way.

use crate::Reason;
use crate::encoding::EncodingType;
use crate::records::{Fraction, LeadingDigits, TimeRecord};
use crate::classes::{is_decimal_separator, is_time_separator};
use crate::cursor::Cursor;

/// What a function reads: a time, or one of two kinds of offsets. After its sign, an offset is written like a time.
#[derive(Clone, Copy)]
pub enum Clock {
    /// A time of day.
    Time,
    /// An offset from UTC, after its sign.
    Offset,
    /// An offset without seconds, after its sign.
    MinuteOffset,
}

impl Clock {
    /// Returns whether a second begins at the byte after a minute: at a colon if the time has colons, and otherwise at
    /// a digit. An offset without seconds has no second, so the result is `false` for it.
    #[inline(always)]
    fn starts_second(self, colons: bool, byte: u8) -> bool {
        match self {
            Clock::Time | Clock::Offset if colons => is_time_separator(byte),
            Clock::Time | Clock::Offset => byte.is_ascii_digit(),
            Clock::MinuteOffset => false,
        }
    }

    /// Returns the greatest second.
    #[inline(always)]
    fn greatest_second(self) -> u8 {
        match self {
            Clock::Time => 60,
            Clock::Offset | Clock::MinuteOffset => 59,
        }
    }

    /// Returns the `Reason` for an error directly after a time or an offset. `shape` says which parts the time or the
    /// offset has. `self` says which of the two it is.
    #[inline(always)]
    pub fn stop_after(self, shape: TimeShape) -> Reason {
        match shape {
            TimeShape::Hours => self.stop(ClockLine::AfterHour),
            TimeShape::BasicMinutes => self.stop(ClockLine::AfterBasicMinute),
            TimeShape::ColonMinutes => self.stop(ClockLine::AfterColonMinute),
            TimeShape::Seconds => self.stop(ClockLine::AfterSecond),
            TimeShape::Fractions => self.stop(ClockLine::AfterFraction),
        }
    }

    /// Returns the `Reason` of the table line after a minute. `colons` says whether a colon is before the minute.
    #[inline(always)]
    fn stop_after_minute(self, colons: bool) -> Reason {
        if colons {
            self.stop(ClockLine::AfterColonMinute)
        } else {
            self.stop(ClockLine::AfterBasicMinute)
        }
    }

    /// Returns the `Reason` of the table line `line` for this clock.
    #[inline(always)]
    pub fn stop(self, line: ClockLine) -> Reason {
        match self {
            Clock::Time => line.time_reason(),
            Clock::Offset => line.offset_reason(),
            Clock::MinuteOffset => line.zone_offset_stop(),
        }
    }
}

/// A line of the fault table (docs/FAULTS.md) about times, and about offsets after their sign. Each of these lines has one
/// `Reason` for each `Clock`.
#[derive(Clone, Copy)]
pub enum ClockLine {
    HourStart,
    HourDigit,
    HourRange,
    AfterHour,
    MinuteDigits,
    MinuteRange,
    AfterBasicMinute,
    AfterColonMinute,
    SecondDigits,
    SecondRange,
    AfterSecond,
    FractionStart,
    AfterFraction,
}

impl ClockLine {
    /// Returns the `Reason` of the line of times.
    #[inline(always)]
    fn time_reason(self) -> Reason {
        match self {
            ClockLine::HourStart => Reason::HourStart,
            ClockLine::HourDigit => Reason::HourDigit,
            ClockLine::HourRange => Reason::HourRange,
            ClockLine::AfterHour => Reason::AfterHour,
            ClockLine::MinuteDigits => Reason::MinuteDigits,
            ClockLine::MinuteRange => Reason::MinuteRange,
            ClockLine::AfterBasicMinute => Reason::AfterBasicMinute,
            ClockLine::AfterColonMinute => Reason::AfterColonMinute,
            ClockLine::SecondDigits => Reason::SecondDigits,
            ClockLine::SecondRange => Reason::SecondRange,
            ClockLine::AfterSecond => Reason::AfterSecond,
            ClockLine::FractionStart => Reason::FractionStart,
            ClockLine::AfterFraction => Reason::AfterFraction,
        }
    }

    /// Returns the `Reason` of the line of offsets.
    #[inline(always)]
    fn offset_reason(self) -> Reason {
        match self {
            ClockLine::HourStart => Reason::OffsetHourStart,
            ClockLine::HourDigit => Reason::OffsetHourDigit,
            ClockLine::HourRange => Reason::OffsetHourRange,
            ClockLine::AfterHour => Reason::OffsetAfterHour,
            ClockLine::MinuteDigits => Reason::OffsetMinuteDigits,
            ClockLine::MinuteRange => Reason::OffsetMinuteRange,
            ClockLine::AfterBasicMinute => Reason::OffsetAfterBasicMinute,
            ClockLine::AfterColonMinute => Reason::OffsetAfterColonMinute,
            ClockLine::SecondDigits => Reason::OffsetSecondDigits,
            ClockLine::SecondRange => Reason::OffsetSecondRange,
            ClockLine::AfterSecond => Reason::OffsetAfterSecond,
            ClockLine::FractionStart => Reason::OffsetFractionStart,
            ClockLine::AfterFraction => Reason::OffsetAfterFraction,
        }
    }

    /// Returns the `Reason` of the line of offsets without seconds.
    #[inline(always)]
    fn zone_offset_stop(self) -> Reason {
        match self {
            ClockLine::HourStart => Reason::ZoneOffsetHourStart,
            ClockLine::HourDigit => Reason::ZoneOffsetHourDigit,
            ClockLine::HourRange => Reason::ZoneOffsetHourRange,
            ClockLine::AfterHour => Reason::ZoneOffsetAfterHour,
            ClockLine::MinuteDigits => Reason::ZoneOffsetMinuteDigits,
            ClockLine::MinuteRange => Reason::ZoneOffsetMinuteRange,
            ClockLine::AfterBasicMinute => Reason::ZoneOffsetAfterBasicMinute,
            ClockLine::AfterColonMinute => Reason::ZoneOffsetAfterColonMinute,
            ClockLine::SecondDigits => Reason::ZoneOffsetSecondDigits,
            ClockLine::SecondRange => Reason::ZoneOffsetSecondRange,
            ClockLine::AfterSecond => Reason::ZoneOffsetAfterSecond,
            ClockLine::FractionStart => Reason::ZoneOffsetFractionStart,
            ClockLine::AfterFraction => Reason::ZoneOffsetAfterFraction,
        }
    }
}

/// The parts that a time has.
#[derive(Clone, Copy)]
pub enum TimeShape {
    /// Only an hour.
    Hours,
    /// An hour and a minute, without a colon between them.
    BasicMinutes,
    /// An hour and a minute, with a colon between them.
    ColonMinutes,
    /// An hour, a minute and a second.
    Seconds,
    /// An hour, a minute, a second and a fraction.
    Fractions,
}

impl TimeShape {
    /// Returns whether the time has a second.
    #[inline(always)]
    pub fn writes_seconds(self) -> bool {
        match self {
            TimeShape::Seconds | TimeShape::Fractions => true,
            TimeShape::Hours | TimeShape::BasicMinutes | TimeShape::ColonMinutes => false,
        }
    }
}

// ==== The time in its fixed columns after a date ====

/// A time with hour, minute and second.
#[derive(Clone, Copy)]
pub struct WholeTime {
    pub hour: u8,
    pub minute: u8,
    pub second: u8,
}

impl WholeTime {
    /// Returns the record of the time, with the fraction, if there is one.
    #[inline(always)]
    pub fn with_fraction(self, fraction: Option<Fraction>) -> TimeRecord {
        TimeRecord {
            hour: self.hour,
            minute: self.minute,
            second: self.second,
            fraction,
        }
    }
}

/// Returns the time in the eight columns after a date and a separator. Returns `None` if a column does not fit, or if a number is
/// out of its range.
///
/// Each number is compared with its limit where it is read, so that the compiled code makes one test for the digits and the range.
#[inline(always)]
pub fn fixed_time<'a, T: EncodingType>(cursor: &mut Cursor<'a, T>) -> Option<WholeTime> {
    let hour = cursor.fixed_number_up_to(11, 23)?;
    cursor.fixed_letter(13, b':')?;
    let minute = cursor.fixed_number_up_to(14, 59)?;
    cursor.fixed_letter(16, b':')?;
    let second = cursor.fixed_number_up_to(17, 60)?;
    Some(WholeTime {
        hour,
        minute,
        second,
    })
}

// ==== Times digit by digit ====

/// Writes the parts of a time into a record.
#[inline(always)]
fn write_time(time: &mut TimeRecord, hour: u8, minute: u8, second: u8, fraction: Option<Fraction>) {
    *time = TimeRecord {
        hour,
        minute,
        second,
        fraction,
    };
}

/// Returns the number if it is at most `greatest`, and otherwise `stop`.
#[inline(always)]
fn check_most(number: u8, greatest: u8, stop: Reason) -> Result<u8, Reason> {
    if number > greatest {
        return Err(stop);
    }
    Ok(number)
}

/// Consumes two digits, and returns their number, which is at most `greatest`.
///
/// Returns `first` if the first digit is missing, `second` if the second one is missing, and `past` for a greater number.
#[inline(always)]
pub fn next_number<'a, T: EncodingType>(
    cursor: &mut Cursor<'a, T>,
    greatest: u8,
    first: Reason,
    second: Reason,
    past: Reason,
) -> Result<u8, Reason> {
    let number = cursor.two_digits(first, second)?;
    check_most(number, greatest, past)
}

/// Reads a time or an offset, and writes it to `time`. Returns which parts it has.
///
/// Other code units can follow the time or the offset. A bad code unit is an error there. It is also an error if a colon or
/// a digit follows a minute, and does not begin a second.
#[inline(always)]
pub fn parse_clock<'a, T: EncodingType>(
    cursor: &mut Cursor<'a, T>,
    clock: Clock,
    time: &mut TimeRecord,
) -> Result<TimeShape, Reason> {
    parse_clock_from(cursor, clock, clock.stop(ClockLine::HourStart), time)
}

/// Does the work of `parse_clock`. Returns `first` if the first digit is missing.
#[inline(always)]
pub fn parse_clock_from<'a, T: EncodingType>(
    cursor: &mut Cursor<'a, T>,
    clock: Clock,
    first: Reason,
    time: &mut TimeRecord,
) -> Result<TimeShape, Reason> {
    let hour = next_hour(cursor, clock, first)?;
    match look_after(cursor, clock, TimeShape::Hours)? {
        Some(byte) if is_time_separator(byte) => {
            cursor.advance();
            parse_minute(cursor, clock, true, hour, time)
        }
        Some(byte) if byte.is_ascii_digit() => parse_minute(cursor, clock, false, hour, time),
        _ => {
            write_time(time, hour, 0, 0, None);
            Ok(TimeShape::Hours)
        }
    }
}

/// Reads the minute, and the parts of the time after it. If the time has colons, the colon before the minute has been
/// consumed.
///
/// A second can follow the minute, if the clock has seconds. It has a colon before it exactly if the minute has one.
/// Any other colon or digit after the minute is an error.
#[inline(always)]
fn parse_minute<'a, T: EncodingType>(
    cursor: &mut Cursor<'a, T>,
    clock: Clock,
    colons: bool,
    hour: u8,
    time: &mut TimeRecord,
) -> Result<TimeShape, Reason> {
    let minute = next_minute(cursor, clock)?;
    match look_after_minute(cursor, clock, colons)? {
        Some(byte) if clock.starts_second(colons, byte) => {
            if colons {
                cursor.advance();
            }
            parse_second(cursor, clock, hour, minute, time)
        }
        Some(byte) if is_time_separator(byte) || byte.is_ascii_digit() => {
            Err(clock.stop_after_minute(colons))
        }
        _ => {
            write_time(time, hour, minute, 0, None);
            Ok(if colons {
                TimeShape::ColonMinutes
            } else {
                TimeShape::BasicMinutes
            })
        }
    }
}

/// Returns the code unit after a time of this shape, without consuming it.
#[inline(always)]
fn look_after<'a, T: EncodingType>(
    cursor: &mut Cursor<'a, T>,
    clock: Clock,
    shape: TimeShape,
) -> Result<Option<u8>, Reason> {
    cursor.look(clock.stop_after(shape))
}

/// Expects the end of the input after a time of this shape.
#[inline(always)]
pub fn close_after<'a, T: EncodingType>(
    cursor: &mut Cursor<'a, T>,
    clock: Clock,
    shape: TimeShape,
) -> Result<(), Reason> {
    cursor.close(clock.stop_after(shape))
}

/// Returns the code unit after a minute, without consuming it. `colons` says whether a colon is before the minute.
#[inline(always)]
fn look_after_minute<'a, T: EncodingType>(
    cursor: &mut Cursor<'a, T>,
    clock: Clock,
    colons: bool,
) -> Result<Option<u8>, Reason> {
    cursor.look(clock.stop_after_minute(colons))
}

/// Reads the digits of a fraction after its `.` or `,`.
#[inline(always)]
fn parse_clock_fraction<'a, T: EncodingType>(
    cursor: &mut Cursor<'a, T>,
    clock: Clock,
) -> Result<Fraction, Reason> {
    let start = clock.stop(ClockLine::FractionStart);
    let digits = clock.stop(ClockLine::AfterFraction);
    parse_fraction(cursor, start, digits)
}

/// Consumes the two digits of an hour, and returns their number. Returns `first` if the first digit is missing.
#[inline(always)]
fn next_hour<'a, T: EncodingType>(
    cursor: &mut Cursor<'a, T>,
    clock: Clock,
    first: Reason,
) -> Result<u8, Reason> {
    let second = clock.stop(ClockLine::HourDigit);
    let past = clock.stop(ClockLine::HourRange);
    next_number(cursor, 23, first, second, past)
}

/// Consumes the two digits of a minute, and returns their number.
#[inline(always)]
fn next_minute<'a, T: EncodingType>(cursor: &mut Cursor<'a, T>, clock: Clock) -> Result<u8, Reason> {
    let digits = clock.stop(ClockLine::MinuteDigits);
    let past = clock.stop(ClockLine::MinuteRange);
    next_number(cursor, 59, digits, digits, past)
}

/// Consumes the two digits of a second, and returns their number: at most 60 in a time, and 59 in an offset.
#[inline(always)]
fn next_second<'a, T: EncodingType>(cursor: &mut Cursor<'a, T>, clock: Clock) -> Result<u8, Reason> {
    let digits = clock.stop(ClockLine::SecondDigits);
    let past = clock.stop(ClockLine::SecondRange);
    next_number(cursor, clock.greatest_second(), digits, digits, past)
}

/// Reads the second, and a fraction if it follows.
#[inline(always)]
fn parse_second<'a, T: EncodingType>(
    cursor: &mut Cursor<'a, T>,
    clock: Clock,
    hour: u8,
    minute: u8,
    time: &mut TimeRecord,
) -> Result<TimeShape, Reason> {
    let second = next_second(cursor, clock)?;
    parse_after_second(cursor, clock, hour, minute, second, time)
}

/// Reads a fraction after a second, if there is one.
#[inline(always)]
pub fn parse_after_second<'a, T: EncodingType>(
    cursor: &mut Cursor<'a, T>,
    clock: Clock,
    hour: u8,
    minute: u8,
    second: u8,
    time: &mut TimeRecord,
) -> Result<TimeShape, Reason> {
    match look_after(cursor, clock, TimeShape::Seconds)? {
        Some(byte) if is_decimal_separator(byte) => {
            cursor.advance();
            let fraction = parse_clock_fraction(cursor, clock)?;
            write_time(time, hour, minute, second, Some(fraction));
            Ok(TimeShape::Fractions)
        }
        _ => {
            write_time(time, hour, minute, second, None);
            Ok(TimeShape::Seconds)
        }
    }
}

/// Reads the digits of a fraction after its `.` or `,`.
///
/// Returns `start` if there is no digit, and `digits` if a bad code unit follows the digits.
#[inline(always)]
pub fn parse_fraction<'a, T: EncodingType>(
    cursor: &mut Cursor<'a, T>,
    start: Reason,
    digits: Reason,
) -> Result<Fraction, Reason> {
    let mut here = cursor.fork();
    let read = parse_digits(&mut here, start, digits);
    *cursor = here;
    read
}

/// Reads the digits of a fraction. The function is not inlined, because few texts have a fraction.
#[inline(never)]
fn parse_digits<'a, T: EncodingType>(
    cursor: &mut Cursor<'a, T>,
    start: Reason,
    digits: Reason,
) -> Result<Fraction, Reason> {
    let mut here = cursor.fork();
    let read = match here.look(start) {
        Ok(Some(byte)) if byte.is_ascii_digit() => {
            here.advance();
            parse_more_digits(&mut here, byte, digits)
        }
        Ok(_) => Err(start),
        Err(stop) => Err(stop),
    };
    *cursor = here;
    read
}

/// Reads the digits of a fraction after the first one. The first 18 digits give the value. Later digits are only
/// counted. Returns `stop` at a bad code unit.
#[inline(always)]
fn parse_more_digits<'a, T: EncodingType>(
    cursor: &mut Cursor<'a, T>,
    first: u8,
    stop: Reason,
) -> Result<Fraction, Reason> {
    let mut digits = LeadingDigits::start(first);
    while digits.is_short() {
        match cursor.look(stop)? {
            Some(byte) if byte.is_ascii_digit() => {
                cursor.advance();
                digits = digits.with_digit(byte);
            }
            _ => return Ok(digits.fraction()),
        }
    }
    count_more_digits(cursor, digits.fraction(), stop)
}

/// Counts the digits of a fraction after the first 18. Returns `stop` at a bad code unit.
#[inline(always)]
fn count_more_digits<'a, T: EncodingType>(
    cursor: &mut Cursor<'a, T>,
    leading: Fraction,
    stop: Reason,
) -> Result<Fraction, Reason> {
    let mut fraction = leading;
    while let Some(byte) = cursor.look(stop)? {
        if !byte.is_ascii_digit() {
            break;
        }
        cursor.advance();
        fraction = fraction.with_more();
    }
    Ok(fraction)
}
