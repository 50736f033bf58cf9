// Made by tools/to_rust.py of crates/ixdtf_grammar/src/records.rt. Do not edit.

//! The records that the readers return: dates, times, offsets, time zones, durations and fractions.

use crate::encoding::{EncodingType, Utf8};
use crate::packed::PackedNumber;

/// The parts of a text with a date or a time. A field is `None` if the text does not have this part.
///
/// # Examples
///
/// ```rust
/// use ixdtf::parsers::IxdtfParser;
///
/// let record = IxdtfParser::from_str("2024-03-02[Europe/Paris]").parse().unwrap();
/// assert!(record.date.is_some() && record.tz.is_some());
/// assert!(record.time.is_none() && record.offset.is_none() && record.calendar.is_none());
/// ```
#[derive(Clone, Copy, Debug, PartialEq, Eq, Hash)]
#[cfg_attr(not(feature = "open-records"), non_exhaustive)]
pub struct IxdtfParseRecord<'a, T: EncodingType> {
    /// The date (`full-date` of RFC 3339, section 5.6, or another form of ISO 8601).
    pub date: Option<DateRecord>,
    /// The time of day (`partial-time` of RFC 3339, section 5.6, or a shorter form of ISO 8601).
    pub time: Option<TimeRecord>,
    /// The offset from UTC (`time-offset` of RFC 3339, section 5.6, or a shorter or longer form).
    pub offset: Option<UtcOffsetRecordOrZ>,
    /// The time zone in brackets (`time-zone` of RFC 9557, section 4.1).
    pub tz: Option<TimeZoneAnnotation<'a, T>>,
    /// The calendar: the value of the first annotation with the key `u-ca` (`suffix-tag` of RFC 9557, section 4.1).
    ///
    /// With a handler, this field is the value of the first annotation with this key that the handler returned. The readers
    /// do not check that the calendar exists.
    pub calendar: Option<&'a [T::CodeUnit]>,
}

impl<'a, T: EncodingType> Default for IxdtfParseRecord<'a, T> {
    /// Creates an empty record.
    #[inline(always)]
    fn default() -> Self {
        IxdtfParseRecord {
            date: None,
            time: None,
            offset: None,
            tz: None,
            calendar: None,
        }
    }
}

/// A date of the proleptic Gregorian calendar (`full-date` of RFC 3339, section 5.6).
#[derive(Clone, Copy, Debug, Default, PartialEq, Eq, Hash)]
pub struct DateRecord {
    /// The year: 0 to 9999 if it is written with four digits, and -999999 to 999999 if it is written with a sign and
    /// six digits. Year 0 is the year before year 1. For a month and a day without a year, this field is 0.
    pub year: i32,
    /// The month, 1 to 12.
    pub month: u8,
    /// The day of the month, from 1 on. For a month and a day without a year, it can also be 0. For a year and a month
    /// without a day, it is 1.
    pub day: u8,
}

/// A time of day (`partial-time` of RFC 3339, section 5.6). A minute or a second that the text does not have is 0.
#[derive(Clone, Copy, Debug, Default, PartialEq, Eq, Hash)]
pub struct TimeRecord {
    /// The hour, 0 to 23.
    pub hour: u8,
    /// The minute, 0 to 59.
    pub minute: u8,
    /// The second, 0 to 60. The second 60 is a leap second. The readers do not change it to 59.
    pub second: u8,
    /// The fraction of a second (`time-secfrac` of RFC 3339, section 5.6), or `None` if the text has no fraction.
    pub fraction: Option<Fraction>,
}

/// A time zone in brackets, such as `[!Europe/Paris]` (`time-zone` of RFC 9557, section 4.1).
///
/// # Examples
///
/// ```rust
/// use ixdtf::parsers::IxdtfParser;
/// use ixdtf::records::TimeZoneRecord;
///
/// let zone = IxdtfParser::from_str("2024-03-02[!Europe/Paris]").parse().unwrap().tz.unwrap();
/// assert!(zone.critical);
/// let TimeZoneRecord::Name(name) = zone.tz else { panic!("an offset") };
/// assert_eq!(core::str::from_utf8(name), Ok("Europe/Paris"));
/// ```
#[derive(Clone, Copy, Debug, PartialEq, Eq, Hash)]
#[cfg_attr(not(feature = "open-records"), non_exhaustive)]
pub struct TimeZoneAnnotation<'a, T: EncodingType> {
    /// Whether a `!` follows the opening bracket (`critical-flag`). If this field is `true`, an application must process
    /// the zone, or reject the text.
    pub critical: bool,
    /// The zone: a name or an offset.
    pub tz: TimeZoneRecord<'a, T>,
}

/// An annotation in brackets, such as `[!u-ca=hebrew]` (`suffix-tag` of RFC 9557, section 4.1).
///
/// # Examples
///
/// ```rust
/// use ixdtf::parsers::IxdtfParser;
///
/// let mut found = None;
/// let mut parser = IxdtfParser::from_str("2024-03-02[!answer=fortytwo]");
/// let record = parser.parse_with_annotation_handler(|annotation| {
///     found = Some(annotation);
///     None
/// });
/// assert!(record.is_ok());
/// let annotation = found.unwrap();
/// assert!(annotation.critical);
/// assert_eq!(annotation.key, b"answer");
/// assert_eq!(annotation.value, b"fortytwo");
/// ```
#[derive(Clone, Copy, Debug, PartialEq, Eq, Hash)]
#[cfg_attr(not(feature = "open-records"), non_exhaustive)]
pub struct Annotation<'a, T: EncodingType> {
    /// Whether a `!` follows the opening bracket (`critical-flag`). If this field is `true`, an application must process
    /// the annotation, or reject the text.
    pub critical: bool,
    /// The code units of the key (`suffix-key`): a slice of the text.
    pub key: &'a [T::CodeUnit],
    /// The code units of the value (`suffix-values`): a slice of the text.
    pub value: &'a [T::CodeUnit],
}

/// A time zone: a name such as `Europe/Paris`, or an offset such as `+05:30`.
#[derive(Clone, Copy, Debug, PartialEq, Eq, Hash)]
#[non_exhaustive]
pub enum TimeZoneRecord<'a, T: EncodingType> {
    /// The code units of a name (`time-zone-name` of RFC 9557, section 4.1): a slice of the text. The readers do not check
    /// that a zone with this name exists.
    Name(&'a [T::CodeUnit]),
    /// A fixed offset (`time-numoffset` of RFC 3339, section 5.6).
    Offset(MinutePrecisionOffset),
}

impl<'a> TimeZoneRecord<'a, Utf8> {
    /// Returns the name of the zone as a string, which is a slice of the text.
    ///
    /// The result is `None` if the zone is an offset, or if the name is not UTF-8. A name that a reader returned contains
    /// only ASCII characters. So the result for such a name is never `None`.
    ///
    /// # Examples
    ///
    /// ```rust
    /// use ixdtf::parsers::TimeZoneParser;
    ///
    /// let zone = TimeZoneParser::from_str("Europe/Berlin").parse_identifier()?;
    /// assert_eq!(zone.name(), Some("Europe/Berlin"));
    /// let zone = TimeZoneParser::from_str("+01:00").parse_identifier()?;
    /// assert_eq!(zone.name(), None);
    /// # Ok::<(), ixdtf::ParseError>(())
    /// ```
    #[must_use]
    pub fn name(&self) -> Option<&'a str> {
        match self {
            TimeZoneRecord::Name(units) => core::str::from_utf8(units).ok(),
            TimeZoneRecord::Offset(_) => None,
        }
    }
}

/// The sign of an offset or of a duration.
#[derive(Clone, Copy, Debug, PartialEq, Eq, Hash)]
#[repr(i8)]
pub enum Sign {
    /// The text has a `-`. This is also the sign of the `-00:00` that
    /// [`resolve_rfc_9557`](UtcOffsetRecordOrZ::resolve_rfc_9557) returns for `Z`.
    Negative = -1,
    /// The text has a `+`, or is a duration without a sign.
    Positive = 1,
}

impl From<bool> for Sign {
    /// Returns `Positive` for `true`, and `Negative` for `false`.
    fn from(value: bool) -> Sign {
        if value {
            Sign::Positive
        } else {
            Sign::Negative
        }
    }
}

/// An offset from UTC in hours and minutes (`time-numoffset` of RFC 3339, section 5.6).
///
/// Local time is UTC plus the offset.
#[derive(Clone, Copy, Debug, PartialEq, Eq, Hash)]
pub struct MinutePrecisionOffset {
    /// The sign. It is `Positive` if local time is ahead of UTC. For `-00:00`, the sign is `Negative`. The offset `-00:00`
    /// means that the time in UTC is known, and that the local offset is not known.
    pub sign: Sign,
    /// The hours, 0 to 23.
    pub hour: u8,
    /// The minutes, 0 to 59.
    pub minute: u8,
}

impl MinutePrecisionOffset {
    /// Returns the offset `+00:00`: local time is UTC (RFC 3339, section 5.6).
    pub const fn zero() -> MinutePrecisionOffset {
        MinutePrecisionOffset {
            sign: Sign::Positive,
            hour: 0,
            minute: 0,
        }
    }
}

/// An offset from UTC with seconds, such as `-05:00:30.5`.
///
/// `time-numoffset` of RFC 3339, section 5.6, has no seconds. `parse`, `parse_time` and `parse_offset` also accept this
/// longer form. A zone in brackets cannot have seconds.
#[derive(Clone, Copy, Debug, PartialEq, Eq, Hash)]
pub struct FullPrecisionOffset {
    /// The sign, the hours and the minutes. The sign is that of the complete offset.
    pub minute_precision_offset: MinutePrecisionOffset,
    /// The seconds, 0 to 59.
    pub second: u8,
    /// The fraction of a second, or `None` if the text has no fraction.
    pub fraction: Option<Fraction>,
}

/// An offset from UTC, with or without seconds. `+01:00` and `+01:00:00` give different values.
#[derive(Clone, Copy, Debug, PartialEq, Eq, Hash)]
#[non_exhaustive]
pub enum UtcOffsetRecord {
    /// The offset was written without seconds.
    MinutePrecision(MinutePrecisionOffset),
    /// The offset was written with seconds.
    FullPrecisionOffset(FullPrecisionOffset),
}

impl UtcOffsetRecord {
    /// Returns whether the offset was written without seconds (as `time-numoffset` of RFC 3339, section 5.6).
    #[must_use]
    pub fn is_minute_precision(&self) -> bool {
        matches!(self, UtcOffsetRecord::MinutePrecision(_))
    }

    /// Returns the offset `+00:00`, without seconds: local time is UTC (RFC 3339, section 5.6).
    #[must_use]
    pub fn zero() -> UtcOffsetRecord {
        UtcOffsetRecord::MinutePrecision(MinutePrecisionOffset::zero())
    }

    /// Returns the sign of the complete offset (`time-numoffset` of RFC 3339, section 5.6).
    #[must_use]
    pub fn sign(&self) -> Sign {
        match self {
            UtcOffsetRecord::MinutePrecision(offset) => offset.sign,
            UtcOffsetRecord::FullPrecisionOffset(offset) => offset.minute_precision_offset.sign,
        }
    }

    /// Returns the hours (`time-hour` of RFC 3339, section 5.6).
    #[must_use]
    pub fn hour(&self) -> u8 {
        match self {
            UtcOffsetRecord::MinutePrecision(offset) => offset.hour,
            UtcOffsetRecord::FullPrecisionOffset(offset) => offset.minute_precision_offset.hour,
        }
    }

    /// Returns the minutes (`time-minute` of RFC 3339, section 5.6).
    #[must_use]
    pub fn minute(&self) -> u8 {
        match self {
            UtcOffsetRecord::MinutePrecision(offset) => offset.minute,
            UtcOffsetRecord::FullPrecisionOffset(offset) => offset.minute_precision_offset.minute,
        }
    }

    /// Returns the seconds, or `None` if the offset was written without seconds. Offsets of RFC 3339 have no seconds.
    #[must_use]
    pub fn second(&self) -> Option<u8> {
        match self {
            UtcOffsetRecord::MinutePrecision(_) => None,
            UtcOffsetRecord::FullPrecisionOffset(offset) => Some(offset.second),
        }
    }

    /// Returns the fraction of a second, or `None` if the offset was written without a fraction.
    #[must_use]
    pub fn fraction(&self) -> Option<Fraction> {
        match self {
            UtcOffsetRecord::MinutePrecision(_) => None,
            UtcOffsetRecord::FullPrecisionOffset(offset) => offset.fraction,
        }
    }
}

/// The offset of a time: numbers such as `-05:30`, or `Z` (`time-offset` of RFC 3339, section 5.6).
///
/// # Examples
///
/// ```rust
/// use ixdtf::parsers::IxdtfParser;
/// use ixdtf::records::{Sign, UtcOffsetRecordOrZ};
///
/// // How many minutes local time is ahead of UTC, if the text says it.
/// fn minutes_ahead(text: &str) -> Option<i32> {
///     match IxdtfParser::from_str(text).parse().ok()?.offset? {
///         UtcOffsetRecordOrZ::Z => None,
///         UtcOffsetRecordOrZ::Offset(offset) => {
///             let minutes = i32::from(offset.hour()) * 60 + i32::from(offset.minute());
///             Some(if offset.sign() == Sign::Negative { -minutes } else { minutes })
///         }
///     }
/// }
///
/// assert_eq!(minutes_ahead("2024-03-02T08:48:00-05:30"), Some(-330));
/// assert_eq!(minutes_ahead("2024-03-02T08:48:00+00:00"), Some(0));
/// assert_eq!(minutes_ahead("2024-03-02T08:48:00Z"), None);
/// ```
#[derive(Clone, Copy, Debug, PartialEq, Eq, Hash)]
pub enum UtcOffsetRecordOrZ {
    /// An offset that is written as numbers.
    Offset(UtcOffsetRecord),
    /// The letter `Z` or `z`. The time is UTC, and the local offset is not known.
    Z,
}

impl UtcOffsetRecordOrZ {
    /// Returns the offset as numbers. Returns `-00:00` for `Z`.
    ///
    /// `Z` and `-00:00` have the same meaning: the time in UTC is known, and the local offset is not known (RFC 9557,
    /// section 2).
    ///
    /// # Examples
    ///
    /// ```rust
    /// use ixdtf::records::{Sign, UtcOffsetRecordOrZ};
    ///
    /// let offset = UtcOffsetRecordOrZ::Z.resolve_rfc_9557();
    /// assert_eq!((offset.sign(), offset.hour(), offset.minute()), (Sign::Negative, 0, 0));
    /// ```
    #[must_use]
    pub fn resolve_rfc_9557(self) -> UtcOffsetRecord {
        match self {
            UtcOffsetRecordOrZ::Offset(offset) => offset,
            UtcOffsetRecordOrZ::Z => {
                let unknown = MinutePrecisionOffset {
                    sign: Sign::Negative,
                    ..MinutePrecisionOffset::zero()
                };
                UtcOffsetRecord::MinutePrecision(unknown)
            }
        }
    }
}

/// A duration, such as `P1Y2M3DT4H` (ISO 8601, section 5.5.2; `Duration` of the Temporal grammar).
///
/// The record keeps the units of the text: no unit is converted to another one.
#[derive(Clone, Copy, Debug, PartialEq, Eq, Hash)]
pub struct DurationParseRecord {
    /// The sign of the complete duration. It is `Negative` exactly if the text begins with a `-`.
    pub sign: Sign,
    /// The years, months, weeks and days (`DurationDate`), or `None` if `T` follows `P` directly.
    pub date: Option<DateDurationRecord>,
    /// The hours, minutes and seconds (`DurationTime`), or `None` if the text has no `T`.
    pub time: Option<TimeDurationRecord>,
}

/// The years, months, weeks and days of a duration (`DurationDate` of the Temporal grammar; ISO 8601, section 5.5.2).
///
/// A unit that the text does not have is 0. If the text repeats a unit, the record has the last number of this unit.
#[derive(Clone, Copy, Debug, Default, PartialEq, Eq, Hash)]
pub struct DateDurationRecord {
    /// The years (`Y`).
    pub years: u32,
    /// The months (`M`).
    pub months: u32,
    /// The weeks (`W`).
    pub weeks: u32,
    /// The days (`D`).
    pub days: u64,
}

/// The hours, minutes and seconds of a duration (`DurationTime` of the Temporal grammar; ISO 8601, section 5.5.2).
///
/// Each variant has the name of the last unit of the text. A unit that the text does not have is 0. If the text repeats a
/// unit, the record has the last number of this unit.
///
/// # Examples
///
/// ```rust
/// use ixdtf::parsers::IsoDurationParser;
/// use ixdtf::records::TimeDurationRecord;
///
/// // The seconds in the time part of a duration, without fractions of a second.
/// fn seconds_of(time: TimeDurationRecord) -> u128 {
///     let (hours, minutes, seconds, fraction, unit) = match time {
///         TimeDurationRecord::Hours { hours, fraction } => (hours, 0, 0, fraction, 3600),
///         TimeDurationRecord::Minutes { hours, minutes, fraction } => {
///             (hours, minutes, 0, fraction, 60)
///         }
///         TimeDurationRecord::Seconds { hours, minutes, seconds, fraction } => {
///             (hours, minutes, seconds, fraction, 1)
///         }
///     };
///     let billionths = match fraction {
///         Some(fraction) => u64::from(fraction.to_truncated_nanoseconds()),
///         None => 0,
///     };
///     let whole = u128::from(hours) * 3600 + u128::from(minutes) * 60 + u128::from(seconds);
///     whole + u128::from(billionths * unit / 1_000_000_000)
/// }
///
/// let duration = IsoDurationParser::from_str("-PT1H30.5M").parse().unwrap();
/// assert_eq!(seconds_of(duration.time.unwrap()), 5430);
/// ```
#[derive(Clone, Copy, Debug, PartialEq, Eq, Hash)]
pub enum TimeDurationRecord {
    /// The last unit is hours.
    Hours {
        /// The hours (`H`).
        hours: u64,
        /// The fraction of an hour, or `None` if the text has no fraction.
        fraction: Option<Fraction>,
    },
    /// The last unit is minutes.
    Minutes {
        /// The hours (`H`).
        hours: u64,
        /// The minutes (`M`).
        minutes: u64,
        /// The fraction of a minute, or `None` if the text has no fraction.
        fraction: Option<Fraction>,
    },
    /// The last unit is seconds.
    Seconds {
        /// The hours (`H`).
        hours: u64,
        /// The minutes (`M`).
        minutes: u64,
        /// The seconds (`S`).
        seconds: u64,
        /// The fraction of a second, or `None` if the text has no fraction.
        fraction: Option<Fraction>,
    },
}

/// The first digits of a fraction, at most 18. This type is only for crates of this repository, and not a part of the
/// public interface.
///
/// While digits are read one by one, their value is an ordinary number. A [`Fraction`] stores its value in a packed form,
/// as eight bytes. This crate is written in Rattle, which is Rust with contracts. The code that Rattle's compiler produces
/// needs about 50 instructions to pack a value. So the value is packed only once, after the last of these digits.
#[doc(hidden)]
#[derive(Clone, Copy, Debug)]
pub struct LeadingDigits {
    count: u8,
    value: u64,
}

impl LeadingDigits {
    /// Creates one digit, given as an ASCII byte.
    #[inline(always)]
    pub(crate) fn start(digit: u8) -> LeadingDigits {
        LeadingDigits {
            count: 1,
            value: u64::from(digit - b'0'),
        }
    }

    /// Returns whether there are fewer than 18 digits. If so, the value has room for the next digit. Otherwise, the
    /// next digit is only counted.
    #[inline(always)]
    pub(crate) fn is_short(self) -> bool {
        self.count < 18
    }

    /// Returns the digits with one more digit at their end, given as an ASCII byte. There must be fewer than 18 digits.
    #[inline(always)]
    pub(crate) fn with_digit(self, digit: u8) -> LeadingDigits {
        LeadingDigits {
            count: self.count + 1,
            value: self.value * 10 + u64::from(digit - b'0'),
        }
    }

    /// Returns the fraction with these digits.
    #[inline(always)]
    pub(crate) fn fraction(self) -> Fraction {
        Fraction {
            digits: self.count,
            value: PackedNumber::of(self.value),
        }
    }
}

/// A fraction: the digits after a `.` or a `,`.
///
/// A fraction belongs to a second (`time-secfrac` of RFC 3339, section 5.6), or to the last unit of a duration. For a
/// fraction of an hour, the methods for nanoseconds return billionths of an hour. For a fraction of a minute, they return
/// billionths of a minute.
///
/// A fraction stores the number of its digits, up to 255, and the value of the first 18 digits. So `.1` and `.10` are
/// different fractions. Digits after the first 18 are only counted.
///
/// # Examples
///
/// ```rust
/// use ixdtf::parsers::IxdtfParser;
///
/// let time = IxdtfParser::from_str("T12:30:45.10").parse_time().unwrap().time.unwrap();
/// let fraction = time.fraction.unwrap();
/// assert_eq!((fraction.digit_count(), fraction.leading_value()), (2, 10));
/// assert_eq!(fraction.to_nanoseconds(), Some(100_000_000));
/// ```
#[derive(Clone, Copy, Debug, PartialEq, Eq, Hash)]
pub struct Fraction {
    digits: u8,
    value: PackedNumber,
}

// A record can have two fractions, that of a time and that of an offset. A record that is short enough is copied without a
// function call, so a fraction must be short.
const _: () = assert!(size_of::<Fraction>() == 9);

impl Fraction {
    /// Creates the fraction with `count` digits, the first 18 of which have the value `value`.
    ///
    /// Returns `None` if there is no such fraction. If `count` is less than 18, `value` is the value of all digits.
    /// This function is only for crates of this repository, and not a part of the public interface.
    #[doc(hidden)]
    pub fn of_parts(count: u8, value: u64) -> Option<Fraction> {
        if count == 0 || value >= 10u64.pow(u32::from(count.min(18))) {
            return None;
        }
        Some(Fraction {
            digits: count,
            value: PackedNumber::of(value),
        })
    }

    /// Returns the fraction with one more digit at its end. There must be 18 digits or more already, so the new digit
    /// is only counted. If the count is 255, it does not change.
    #[inline(always)]
    pub(crate) fn with_more(self) -> Fraction {
        Fraction {
            digits: self.digits.saturating_add(1),
            value: self.value,
        }
    }

    /// Returns the number of digits, 1 to 255. Leading and trailing zeros count.
    ///
    /// If the text has more than 255 digits, the number is 255.
    #[must_use]
    pub fn digit_count(&self) -> u8 {
        let Fraction { digits, .. } = *self;
        digits
    }

    /// Returns the value of the first 18 digits, or of all digits if there are fewer. For `.10`, the value is 10.
    #[must_use]
    pub fn leading_value(&self) -> u64 {
        let Fraction { value, .. } = *self;
        value.number()
    }

    /// Returns the nanoseconds of the fraction, or `None` if it has more than nine digits.
    ///
    /// A zero after the ninth digit counts as a digit. If the fraction has at most nine digits,
    /// [`to_truncated_nanoseconds`](Self::to_truncated_nanoseconds) returns the same number.
    ///
    /// # Examples
    ///
    /// ```rust
    /// use ixdtf::parsers::IxdtfParser;
    ///
    /// let time = IxdtfParser::from_str("T12:30:45.1234567891").parse_time().unwrap().time.unwrap();
    /// let fraction = time.fraction.unwrap();
    /// assert_eq!(fraction.to_nanoseconds(), None);
    /// ```
    #[must_use]
    pub fn to_nanoseconds(&self) -> Option<u32> {
        if self.digits > 9 {
            return None;
        }
        Some(self.to_truncated_nanoseconds())
    }

    /// Returns the nanoseconds of the fraction, without the digits after the ninth.
    ///
    /// # Examples
    ///
    /// ```rust
    /// use ixdtf::parsers::IxdtfParser;
    ///
    /// let time = IxdtfParser::from_str("T12:30:45.1234567891").parse_time().unwrap().time.unwrap();
    /// let fraction = time.fraction.unwrap();
    /// assert_eq!(fraction.to_truncated_nanoseconds(), 123_456_789);
    /// ```
    #[must_use]
    pub fn to_truncated_nanoseconds(&self) -> u32 {
        let value = self.value.number();
        if self.digits <= 9 {
            (value * 10u64.pow(u32::from(9 - self.digits))) as u32
        } else {
            // The power is at least 1, but the compiler does not know this. Because of `max`, it compiles no code for a
            // division by zero.
            (value / 10u64.pow(u32::from(self.digits.min(18) - 9)).max(1)) as u32
        }
    }
}
