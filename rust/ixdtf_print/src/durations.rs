// Made by tools/to_rust.py of crates/ixdtf_print/src/durations.rt. Do not edit.

//! Durations printed as their canonical texts.

use crate::digits::put_fraction;
use crate::error::PrintError;
use crate::length::fraction_length;
use crate::numbers::{digit_count, put_number};
use crate::put::{put, put_byte};
use crate::text::{self, CanonicalText, Tail};
use ixdtf::records::{DateDurationRecord, DurationParseRecord, Fraction, Sign, TimeDurationRecord};
use core::fmt;

/// The greatest number of bytes of a duration without a fraction: 2 for its sign and its `P`, 54 for its date, and 64 for its
/// time. In a date, only the days can have more than ten digits. No number has more than twenty digits.
const MOST_WITHOUT_FRACTION: usize = 120;

/// Writes the canonical text of a duration, such as `P1Y2M3DT4H5.5M`, to the beginning of the slice.
///
/// The duration is a record that [`IsoDurationParser::parse`](ixdtf::parsers::IsoDurationParser::parse) returns. The
/// canonical text begins with `-` if the duration is negative. A duration unit whose number is zero is left out, with two
/// exceptions. If all numbers of the date are zero, the date is written as `0D`. The last unit of the time is always
/// written, because the record says which unit is the last one: `PT0H` and `PT0S` are parsed as different records. Numbers
/// have no leading zeros. Digits of a fraction after the first 18 are written as zeros.
///
/// Returns the number of bytes that were written. The canonical text is at most as long as the text that was parsed.
///
/// # Examples
///
/// ```rust
/// use ixdtf::parsers::IsoDurationParser;
/// use ixdtf_print::{PrintError, print_duration};
///
/// let mut out = [0; 64];
/// for (text, canonical) in [
///     ("+p1y0m03dt04,50m", "P1Y3DT4.50M"),
///     ("-P0Y", "-P0D"),
///     ("P0WT0H0S", "P0DT0S"),
/// ] {
///     let duration = IsoDurationParser::from_str(text).parse().unwrap();
///     let count = print_duration(&duration, &mut out).unwrap();
///     assert_eq!(&out[..count], canonical.as_bytes());
///     assert_eq!(print_duration(&duration, &mut [0; 3]), Err(PrintError::TooShort));
/// }
/// ```
///
/// # Errors
///
/// After an error, the slice is unchanged.
///
/// - [`PrintError::NotPrintable`]: the duration has no canonical text, because it has neither a date nor a time.
/// - [`PrintError::TooShort`]: the slice is shorter than the canonical text.
pub fn print_duration(duration: &DurationParseRecord, out: &mut [u8]) -> Result<usize, PrintError> {
    text::print(CanonicalDuration { duration }, out)
}

/// Writes the canonical text of a duration as 16-bit code units, like [`print_duration`](crate::print_duration).
///
/// Each code unit is the number of an ASCII character, so
/// [`IsoDurationParser::from_utf16`](ixdtf::parsers::IsoDurationParser::from_utf16) makes a parser that reads the text.
/// The number of code units is the number of bytes that `print_duration` writes.
///
/// # Examples
///
/// ```rust
/// use ixdtf::parsers::IsoDurationParser;
/// use ixdtf_print::{PrintError, print_duration_utf16};
///
/// let text: Vec<u16> = "+p1y0m03dt04,50m".encode_utf16().collect();
/// let duration = IsoDurationParser::from_utf16(&text).parse().unwrap();
/// let mut out = [0; 64];
/// let count = print_duration_utf16(&duration, &mut out).unwrap();
/// assert_eq!(String::from_utf16(&out[..count]).unwrap(), "P1Y3DT4.50M");
/// assert_eq!(print_duration_utf16(&duration, &mut [0; 3]), Err(PrintError::TooShort));
/// ```
///
/// # Errors
///
/// After an error, the slice is unchanged.
///
/// - [`PrintError::NotPrintable`]: the duration has no canonical text, because it has neither a date nor a time.
/// - [`PrintError::TooShort`]: the slice is shorter than the canonical text.
pub fn print_duration_utf16(
    duration: &DurationParseRecord,
    out: &mut [u16],
) -> Result<usize, PrintError> {
    text::print_utf16(CanonicalDuration { duration }, out)
}

/// Returns the number of bytes of the canonical text of a duration.
///
/// A slice of this length is long enough for [`print_duration`](crate::print_duration). Returns `None` if the duration has
/// no canonical text, because it has neither a date nor a time.
///
/// # Examples
///
/// ```rust
/// use ixdtf::parsers::IsoDurationParser;
/// use ixdtf_print::duration_length;
///
/// let duration = IsoDurationParser::from_str("PT01H30.5M").parse().unwrap();
/// assert_eq!(duration_length(&duration), Some("PT1H30.5M".len()));
/// ```
pub fn duration_length(duration: &DurationParseRecord) -> Option<usize> {
    text::printed_length(CanonicalDuration { duration })
}

/// Returns whether there is a date or a time. The numbers need no test, because every value of their types has a text.
#[inline(always)]
fn has_part(date: Option<DateDurationRecord>, time: Option<TimeDurationRecord>) -> bool {
    date.is_some() || time.is_some()
}

/// A value that displays the canonical text of a duration, such as `-PT1H30.5M`.
///
/// This is the text that [`print_duration`](crate::print_duration) writes into a slice. `Display` does not allocate, and
/// ignores width and fill.
///
/// # Examples
///
/// ```rust
/// use ixdtf::parsers::IsoDurationParser;
/// use ixdtf_print::CanonicalDuration;
///
/// let duration = IsoDurationParser::from_str("-pt1h0030,5m").parse().unwrap();
/// assert_eq!(CanonicalDuration::of(&duration).unwrap().to_string(), "-PT1H30.5M");
/// ```
#[derive(Clone, Copy, Debug)]
pub struct CanonicalDuration<'a> {
    pub(crate) duration: &'a DurationParseRecord,
}

impl<'a> CanonicalDuration<'a> {
    /// Creates a value that displays the duration. Returns `None` if the duration has no canonical text, because it has
    /// neither a date nor a time.
    pub fn of(duration: &'a DurationParseRecord) -> Option<CanonicalDuration<'a>> {
        text::checked(CanonicalDuration { duration })
    }
}

impl<'a> CanonicalText for CanonicalDuration<'a> {
    fn is_printable(self) -> bool {
        has_part(self.duration.date, self.duration.time)
    }

    fn core_length(self) -> u16 {
        length_of_duration(self.duration)
    }

    fn put_core(self, out: &mut [u8]) -> usize {
        put_duration(out, self.duration)
    }

    fn tail(&self) -> Tail<'_> {
        Tail::Nothing
    }

    fn is_too_short(self, room: usize) -> bool {
        let fraction = fraction_length(last_fraction(self.duration.time));
        // A slice is usually longer than each duration with this fraction. Then the length is not counted.
        if room >= MOST_WITHOUT_FRACTION + usize::from(fraction) {
            return false;
        }
        room < usize::from(length_of_duration(self.duration))
    }
}

// `Display` ignores width and fill.
impl<'a> fmt::Display for CanonicalDuration<'a> {
    fn fmt(&self, f: &mut fmt::Formatter<'_>) -> fmt::Result {
        text::write(*self, f)
    }
}

// ---- Lengths

/// Returns the number of bytes of a duration unit: 0 if its number is zero.
fn unit_length(number: u64, letter: u8) -> u16 {
    if number == 0 {
        0
    } else {
        digit_count(number) + 1
    }
}

/// Returns the number of bytes of the date.
fn date_length(date: Option<DateDurationRecord>) -> u16 {
    let Some(date) = date else {
        return 0;
    };
    if is_zero(date) {
        return 2;
    }
    unit_length(u64::from(date.years), b'Y')
        + unit_length(u64::from(date.months), b'M')
        + unit_length(u64::from(date.weeks), b'W')
        + unit_length(date.days, b'D')
}

/// Returns whether all numbers of the date are zero.
fn is_zero(date: DateDurationRecord) -> bool {
    date.years == 0 && date.months == 0 && date.weeks == 0 && date.days == 0
}

/// Returns the number of bytes of the last unit of a time: its number, its fraction and its letter.
fn last_length(number: u64, fraction: Option<Fraction>, letter: u8) -> u16 {
    digit_count(number) + fraction_length(fraction) + 1
}

/// Returns the fraction of the last duration unit of a time, if there is one.
#[inline(always)]
fn last_fraction(time: Option<TimeDurationRecord>) -> Option<Fraction> {
    match time {
        None => None,
        Some(TimeDurationRecord::Hours { fraction, .. }) => fraction,
        Some(TimeDurationRecord::Minutes { fraction, .. }) => fraction,
        Some(TimeDurationRecord::Seconds { fraction, .. }) => fraction,
    }
}

/// Returns the number of bytes of the time, with its `T`.
fn time_length(time: Option<TimeDurationRecord>) -> u16 {
    match time {
        None => 0,
        Some(TimeDurationRecord::Hours { hours, fraction }) => {
            1 + last_length(hours, fraction, b'H')
        }
        Some(
            TimeDurationRecord::Minutes {
                hours,
                minutes,
                fraction,
            },
        ) => { 1 + unit_length(hours, b'H') + last_length(minutes, fraction, b'M') }
        Some(
            TimeDurationRecord::Seconds {
                hours,
                minutes,
                seconds,
                fraction,
            },
        ) => {
            1 + unit_length(hours, b'H')
                + unit_length(minutes, b'M')
                + last_length(seconds, fraction, b'S')
        }
    }
}

/// Returns the number of bytes of the sign and the `P`.
fn start_length(sign: Sign) -> u16 {
    match sign {
        Sign::Positive => 1,
        Sign::Negative => 2,
    }
}

/// Returns the number of bytes of the canonical text of the duration.
fn length_of_duration(duration: &DurationParseRecord) -> u16 {
    start_length(duration.sign) + date_length(duration.date) + time_length(duration.time)
}

// ---- Bytes

/// Writes the duration unit at index `at`, if its number is not zero. Returns the index after it.
fn put_unit(out: &mut [u8], at: usize, number: u64, letter: u8) -> usize {
    if number == 0 {
        return at;
    }
    let end = put_number(out, at, number);
    put_byte(out, end, letter)
}

/// Writes the units of the date at index `at`. Returns the index after them.
fn put_date_units(out: &mut [u8], at: usize, date: DateDurationRecord) -> usize {
    let months = put_unit(out, at, u64::from(date.years), b'Y');
    let weeks = put_unit(out, months, u64::from(date.months), b'M');
    let days = put_unit(out, weeks, u64::from(date.weeks), b'W');
    put_unit(out, days, date.days, b'D')
}

/// Writes the date at index `at`, if there is one. Returns the index after it.
fn put_date(out: &mut [u8], at: usize, date: Option<DateDurationRecord>) -> usize {
    let Some(date) = date else {
        return at;
    };
    if is_zero(date) {
        return put(out, at, b"0D");
    }
    put_date_units(out, at, date)
}

/// Writes the last unit of a time at index `at`: its number, its fraction and its letter. Returns the index after it.
fn put_last(out: &mut [u8], at: usize, number: u64, fraction: Option<Fraction>, letter: u8) -> usize {
    let point = put_number(out, at, number);
    let end = put_fraction(out, point, fraction);
    put_byte(out, end, letter)
}

/// Writes the units of the time at index `at`. Returns the index after them.
fn put_time_units(out: &mut [u8], at: usize, time: TimeDurationRecord) -> usize {
    match time {
        TimeDurationRecord::Hours { hours, fraction } => put_last(out, at, hours, fraction, b'H'),
        TimeDurationRecord::Minutes {
            hours,
            minutes,
            fraction,
        } => {
            let last = put_unit(out, at, hours, b'H');
            put_last(out, last, minutes, fraction, b'M')
        }
        TimeDurationRecord::Seconds {
            hours,
            minutes,
            seconds,
            fraction,
        } => {
            let middle = put_unit(out, at, hours, b'H');
            let last = put_unit(out, middle, minutes, b'M');
            put_last(out, last, seconds, fraction, b'S')
        }
    }
}

/// Writes a `T` and the time at index `at`, if there is a time. Returns the index after it.
fn put_time(out: &mut [u8], at: usize, time: Option<TimeDurationRecord>) -> usize {
    let Some(time) = time else {
        return at;
    };
    let units = put_byte(out, at, b'T');
    put_time_units(out, units, time)
}

/// Writes the sign, if it is negative, and the `P` at index `at`. Returns the index after them.
fn put_start(out: &mut [u8], at: usize, sign: Sign) -> usize {
    match sign {
        Sign::Positive => put(out, at, b"P"),
        Sign::Negative => put(out, at, b"-P"),
    }
}

/// Writes the duration at the beginning of the slice. Returns the index after it.
fn put_duration(out: &mut [u8], duration: &DurationParseRecord) -> usize {
    let date = put_start(out, 0, duration.sign);
    let time = put_date(out, date, duration.date);
    put_time(out, time, duration.time)
}
