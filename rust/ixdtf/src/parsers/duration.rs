// Made by tools/to_rust.py of crates/ixdtf_durations/src/duration.rt. Do not edit.

//! The parser of durations.

use crate::parsers::date_groups::parse_dates;
use crate::parsers::time_groups::parse_time_groups;
use crate::LocatedError;
use crate::encoding::{EncodingType, Utf8, Utf16};
use crate::parsers::profile::Profile;
use crate::records::{DateDurationRecord, DurationParseRecord, Sign};
use crate::{ParseError, ParserResult, Reason};
use crate::classes::{is_ascii_sign, is_duration_designator, is_time_designator};
use crate::cursor::Cursor;
use crate::stop::FromStop;
use crate::parsers::offsets::sign_from;

/// A parser of durations, such as `P1Y2M3DT4H`.
///
/// The parser borrows the text that it parses. It contains only a slice of this text and a profile.
///
/// # Examples
///
/// ```rust
/// use ixdtf::parsers::IsoDurationParser;
///
/// let duration = IsoDurationParser::from_str("P2W").parse().unwrap();
/// assert_eq!(duration.date.unwrap().weeks, 2);
/// ```
#[derive(Debug)]
pub struct IsoDurationParser<'a, T: EncodingType> {
    cursor: Cursor<'a, T>,
    profile: Profile,
}

impl<'a> IsoDurationParser<'a, Utf8> {
    /// Creates a parser of the UTF-8 bytes of a text.
    #[inline]
    #[must_use]
    pub fn from_str(value: &'a str) -> Self {
        Self::new(value.as_bytes())
    }

    /// Creates a parser of bytes. They need not be UTF-8.
    #[inline]
    #[must_use]
    pub fn from_utf8(value: &'a [u8]) -> Self {
        IsoDurationParser::new(value)
    }
}

impl<'a> IsoDurationParser<'a, Utf16> {
    /// Creates a parser of 16-bit code units. They need not be UTF-16.
    ///
    /// # Examples
    ///
    /// ```rust
    /// use ixdtf::parsers::IsoDurationParser;
    ///
    /// let text: Vec<u16> = "P2W".encode_utf16().collect();
    /// let duration = IsoDurationParser::from_utf16(&text).parse().unwrap();
    /// assert_eq!(duration.date.unwrap().weeks, 2);
    /// ```
    #[inline]
    #[must_use]
    pub fn from_utf16(value: &'a [u16]) -> Self {
        Self::new(value)
    }

    /// Creates a parser of 16-bit code units, as [`from_utf16`](Self::from_utf16) does.
    ///
    /// The crate `ixdtf` 0.6.7 of ICU4X has a function with this name, and this library is a port of that crate. There
    /// are two functions `from_utf8`, one for each encoding. So a caller must name the encoding:
    /// `IsoDurationParser::<Utf16>::from_utf8`.
    ///
    /// # Examples
    ///
    /// ```rust
    /// use ixdtf::encoding::Utf16;
    /// use ixdtf::parsers::IsoDurationParser;
    ///
    /// let text: Vec<u16> = "P2W".encode_utf16().collect();
    /// let duration = IsoDurationParser::<Utf16>::from_utf8(&text).parse().unwrap();
    /// assert_eq!(duration.date.unwrap().weeks, 2);
    /// ```
    #[inline]
    #[must_use]
    pub fn from_utf8(value: &'a [u16]) -> Self {
        Self::from_utf16(value)
    }
}

impl<'a, T: EncodingType> IsoDurationParser<'a, T> {
    /// Creates a parser of code units of any encoding.
    #[inline]
    #[must_use]
    pub fn new(value: &'a [T::CodeUnit]) -> Self {
        IsoDurationParser {
            cursor: Cursor::new(value),
            profile: Profile::Crate,
        }
    }

    /// Returns the parser with another profile. The remaining input is unchanged.
    ///
    /// The profile decides whether a duration may repeat a unit.
    ///
    /// # Examples
    ///
    /// ```rust
    /// use ixdtf::ParseError;
    /// use ixdtf::parsers::{IsoDurationParser, Profile};
    ///
    /// assert!(IsoDurationParser::from_str("P1Y2Y").parse().is_ok());
    /// let mut strict = IsoDurationParser::from_str("P1Y2Y").with_profile(Profile::Strict);
    /// assert_eq!(strict.parse(), Err(ParseError::DateDurationPartOrder));
    /// ```
    #[inline]
    #[must_use]
    pub fn with_profile(self, profile: Profile) -> Self {
        IsoDurationParser {
            cursor: self.cursor,
            profile,
        }
    }

    /// Parses the remaining input as a duration, such as `P1Y2M3DT4H` or `-PT1H30.5M`.
    ///
    /// The form of a duration comes from two sources. The first is ISO 8601, section 5.5.2. The second is `Duration` in
    /// the grammar of Temporal, which is a proposal for dates and times in JavaScript. A duration consists of these
    /// parts. Only `P` and one group are required. A group is a number and the letter of its unit.
    ///
    /// 1. An optional sign, `+` or `-`.
    /// 2. `P`.
    /// 3. Date groups: years (`Y`), months (`M`), weeks (`W`) and days (`D`).
    /// 4. `T`, and then time groups: hours (`H`), minutes (`M`) and seconds (`S`). A duration without time groups has no
    ///    `T`. The last time group can have a fraction, such as `.25` or `,25`.
    ///
    /// All letters can be lowercase. Within the date groups, and within the time groups, no unit can come after a
    /// shorter unit. A unit can be repeated, and then its last number counts. Under [`Profile::Strict`], no unit can be
    /// repeated. A number must be less than `2^64`. The number of years, months or weeks must be less than `2^32`.
    ///
    /// The record has a date if the text has date groups, and a time if it has a `T`.
    ///
    /// If the call succeeds, no input remains, and a second call returns the error of the empty text. If it fails, the
    /// input is unchanged, and a second call returns the same error.
    ///
    /// # Examples
    ///
    /// ```rust
    /// use ixdtf::ParseError;
    /// use ixdtf::parsers::IsoDurationParser;
    /// use ixdtf::records::{Sign, TimeDurationRecord};
    ///
    /// let duration = IsoDurationParser::from_str("P1Y2M3W4D").parse()?;
    /// let date = duration.date.unwrap();
    /// assert_eq!((date.years, date.months, date.weeks, date.days), (1, 2, 3, 4));
    /// assert_eq!((duration.sign, duration.time), (Sign::Positive, None));
    ///
    /// let duration = IsoDurationParser::from_str("-pt1h0,5m").parse()?;
    /// let Some(TimeDurationRecord::Minutes { hours, minutes, fraction }) = duration.time else {
    ///     panic!("no minutes")
    /// };
    /// assert_eq!((duration.sign, hours, minutes), (Sign::Negative, 1, 0));
    /// // The fraction is a fraction of a minute: half a minute is 500,000,000 billionths of it.
    /// assert_eq!(fraction.unwrap().to_nanoseconds(), Some(500_000_000));
    ///
    /// assert_eq!(IsoDurationParser::from_str("P1Y2Y").parse()?.date.unwrap().years, 2);
    /// for (text, error) in [
    ///     ("P1D1Y", ParseError::DateDurationPartOrder),
    ///     ("PT0.5H1M", ParseError::InvalidEnd),
    ///     ("P4294967296Y", ParseError::DurationValueExceededRange),
    /// ] {
    ///     assert_eq!(IsoDurationParser::from_str(text).parse(), Err(error));
    /// }
    /// # Ok::<(), ParseError>(())
    /// ```
    ///
    /// # Errors
    ///
    /// The first wrong part of the text decides the error. A group is tested in this order: its number must be less
    /// than `2^64`, its unit must be in order, and a number of years, months or weeks must be less than `2^32`. To get
    /// the position of the error, call [`parse_located`](Self::parse_located).
    ///
    /// - `AbruptEnd`: the text is empty (location `DurationStart`), or ends after the sign (`DurationDesignator`) or
    ///   after `P` (`Duration`). This is also the error if the letter of a unit is missing after a number, with or without
    ///   a fraction. The location is then `DateDurationDesignator` in a date group, and `TimeDurationDesignator` in a time
    ///   group.
    /// - `DurationDisgnator`: the text begins with a character that is neither a sign nor `P`, or the sign is followed
    ///   by another character than `P`.
    /// - The error `TimeDurationDesignator`: no digit follows the `T`. This is also the error if the text ends there.
    /// - `DateDurationPartOrder`, `TimeDurationPartOrder`: a group comes after a group with a shorter unit. Under
    ///   [`Profile::Strict`], this is also the error if a unit is repeated.
    /// - `DurationValueExceededRange`: a number is `2^64` or more, or the number of years, months or weeks is `2^32` or
    ///   more.
    /// - `FractionPart`: no digit follows the `.` or `,`. This is also the error if the text ends there.
    /// - `InvalidEnd`: `P` or a group is followed by a character that must not follow it.
    /// - `NonAsciiCodePoint`: 16-bit text has a code unit outside 1 to 126. 8-bit text never has this error.
    #[inline(always)]
    pub fn parse(&mut self) -> ParserResult<DurationParseRecord> {
        let mut here = self.cursor.fork();
        match parse_opening(&mut here) {
            Ok(sign) => self.parse_groups::<ParseError>(here, sign),
            Err(stop) => self.cursor.settle::<_, ParseError>(here, false, Err(stop)),
        }
    }

    /// Parses the remaining input as a duration, like [`parse`](Self::parse). An error includes its position.
    ///
    /// The position is the number of code units before the error. It is the index of the code unit that does not fit,
    /// or the end of the input if the input ends too early. There are three exceptions:
    ///
    /// - If a number is `2^64` or more, the position is after the first digit with which it is `2^64` or more. More
    ///   digits can follow.
    /// - If a number of years, months or weeks is `2^32` or more, but less than `2^64`, the position is after the letter of
    ///   its unit.
    /// - If a group is out of order, the position is after the letter of its unit.
    ///
    /// # Examples
    ///
    /// ```rust
    /// use ixdtf::ParseError;
    /// use ixdtf::parsers::IsoDurationParser;
    ///
    /// for (text, error, at) in [
    ///     ("P1Y2X", ParseError::AbruptEnd { location: "DateDurationDesignator" }, 4), // at the X
    ///     ("P1D1Y", ParseError::DateDurationPartOrder, 5), // after the second group
    ///     ("PT", ParseError::TimeDurationDesignator, 2), // the end
    /// ] {
    ///     let located = IsoDurationParser::from_str(text).parse_located().unwrap_err();
    ///     assert_eq!((located.error, located.at), (error, at));
    /// }
    /// ```
    ///
    /// # Errors
    ///
    /// Returns the errors of [`parse`](Self::parse), each with its position.
    #[inline(always)]
    pub fn parse_located(&mut self) -> Result<DurationParseRecord, LocatedError> {
        let mut here = self.cursor.fork();
        match parse_opening(&mut here) {
            Ok(sign) => self.parse_groups::<LocatedError>(here, sign),
            Err(stop) => self
                .cursor
                .settle::<_, LocatedError>(here, false, Err(stop)),
        }
    }

    /// Reads a duration after its sign and its `P`, and expects the end of the input. `from` is a second cursor, after
    /// the `P`. If the function returns an error, the remaining input of the parser does not change.
    ///
    /// The two public readers are inlined into their callers, and this function is not. So each caller has the code for
    /// the beginning of a duration. The code for the groups is compiled once for each error type (`ParseError` and
    /// `LocatedError`) and each encoding. If one function contained the complete reader, all calls would be slower.
    fn parse_groups<E: FromStop>(
        &mut self,
        from: Cursor<'a, T>,
        sign: Sign,
    ) -> Result<DurationParseRecord, E> {
        let mut here = from;
        let read = parse_after_designator(&mut here, sign, self.profile);
        self.cursor.settle(here, false, read)
    }
}

/// Reads time groups after their `T`, and expects the end of the input.
#[inline(always)]
fn parse_times<'a, T: EncodingType>(
    cursor: &mut Cursor<'a, T>,
    sign: Sign,
    date: Option<DateDurationRecord>,
    profile: Profile,
) -> Result<DurationParseRecord, Reason> {
    match cursor.look(Reason::AfterTimeDesignator)? {
        Some(byte) if byte.is_ascii_digit() => {
            cursor.advance();
            match parse_time_groups(cursor, byte, profile) {
                Ok(time) => Ok(DurationParseRecord {
                    sign,
                    date,
                    time: Some(time),
                }),
                Err(stop) => Err(stop),
            }
        }
        _ => Err(Reason::AfterTimeDesignator),
    }
}

/// Consumes the `P` or `p` after a sign, and returns the sign.
#[inline(always)]
fn parse_designator<'a, T: EncodingType>(
    cursor: &mut Cursor<'a, T>,
    sign: Sign,
) -> Result<Sign, Reason> {
    match cursor.look(Reason::AfterDurationSign)? {
        Some(byte) if is_duration_designator(byte) => {
            cursor.advance();
            Ok(sign)
        }
        _ => Err(Reason::AfterDurationSign),
    }
}

/// Reads the beginning of a duration, up to its `P` or `p`. Returns its sign.
#[inline(always)]
fn parse_opening<'a, T: EncodingType>(cursor: &mut Cursor<'a, T>) -> Result<Sign, Reason> {
    match cursor.look(Reason::DurationStart)? {
        Some(byte) if is_ascii_sign(byte) => {
            cursor.advance();
            parse_designator(cursor, sign_from(byte))
        }
        Some(byte) if is_duration_designator(byte) => {
            cursor.advance();
            Ok(Sign::Positive)
        }
        _ => Err(Reason::DurationStart),
    }
}

/// Reads a duration that begins with date groups, after their first digit, and expects the end of the input.
#[inline(always)]
fn parse_dated<'a, T: EncodingType>(
    cursor: &mut Cursor<'a, T>,
    sign: Sign,
    first: u8,
    profile: Profile,
) -> Result<DurationParseRecord, Reason> {
    let dates = parse_dates(cursor, first, profile)?;
    if dates.timed {
        return parse_times(cursor, sign, Some(dates.record), profile);
    }
    Ok(DurationParseRecord {
        sign,
        date: Some(dates.record),
        time: None,
    })
}

/// Reads a duration after its sign and its `P` or `p`, and expects the end of the input.
#[inline(always)]
fn parse_after_designator<'a, T: EncodingType>(
    cursor: &mut Cursor<'a, T>,
    sign: Sign,
    profile: Profile,
) -> Result<DurationParseRecord, Reason> {
    match cursor.look(Reason::AfterDurationDesignator)? {
        Some(byte) if is_time_designator(byte) => {
            cursor.advance();
            parse_times(cursor, sign, None, profile)
        }
        Some(byte) if byte.is_ascii_digit() => {
            cursor.advance();
            parse_dated(cursor, sign, byte, profile)
        }
        _ => Err(Reason::AfterDurationDesignator),
    }
}
