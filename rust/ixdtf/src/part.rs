// Made by tools/to_rust.py of crates/ixdtf_explanations/src/part.rt. Do not edit.

//! The part of a text that is wrong.

use crate::located::{LocatedError, LocatedReason};
use crate::Reason;
use crate::encoding::{EncodingType, Utf8, Utf16};

/// The part of a text that is wrong: the bytes from the index `begin` up to, but not including, the index `end`.
#[derive(Clone, Copy, Debug, PartialEq, Eq, Hash)]
pub struct WrongPart {
    /// The index of the first byte.
    pub begin: usize,
    /// The index after the last byte.
    pub end: usize,
}

/// Where the wrong part of a text is, seen from the position of the error.
#[derive(Clone, Copy)]
enum Extent {
    /// The byte at the position, or nothing if the text ends there.
    Byte,
    /// The two digits before the position.
    TwoDigits,
    /// All bytes before the position.
    Front,
    /// The complete number with the digits that are directly before the position. More of its digits can be after the position.
    Number,
    /// The number, its fraction and its unit, directly before the position.
    Group,
    /// The number before the unit that is directly before the position.
    NumberBeforeUnit,
    /// The bracket that ends at the position.
    Bracket,
}

impl LocatedError {
    /// Returns the part of the text that is wrong.
    ///
    /// `text` must be the complete source of the parser that returned this error. This parser must not have returned `Ok`
    /// before. [`in_text`](LocatedError::in_text) has the same two conditions. If the source has 8-bit code units, `text` is
    /// the source itself, which need not be valid UTF-8. If the source has 16-bit code units, `text` must be this source,
    /// converted to UTF-8.
    ///
    /// - If a code unit does not fit, the part is one byte: the one at the position of the error.
    /// - If the text ends too early, the part is empty, and is at the end of the text.
    /// - If a number is out of range, the part is the digits of this number. In a duration, the part contains neither the
    ///   fraction nor the unit that follows the number.
    /// - If the year is `-000000`, the part is the year with its sign.
    /// - If a unit of a duration is not in order, the part is the number, its fraction if there is one, and the unit.
    /// - If a time is ambiguous, the part is the beginning of the text that is also a month-day or a year-month.
    /// - If an annotation is refused because of its key or its value, the part is the bracket of the annotation. If
    ///   `parse_rfc9557` refuses a time zone that does not have the form of RFC 9557, the part is the bracket of the time
    ///   zone.
    ///
    /// # Examples
    ///
    /// ```rust
    /// use ixdtf::WrongPart;
    /// use ixdtf::parsers::IxdtfParser;
    ///
    /// let text = "2024-13-01";
    /// let error = IxdtfParser::from_str(text).parse_located().unwrap_err();
    /// assert_eq!(error.part_in(text.as_bytes()), WrongPart { begin: 5, end: 7 });
    /// ```
    pub fn part_in(&self, text: &[u8]) -> WrongPart {
        self.located_reason().part_in(text)
    }
}

impl LocatedReason {
    /// Returns the part of the text that is wrong, as [`LocatedError::part_in`] does.
    pub fn part_in(self, text: &[u8]) -> WrongPart {
        part_of::<Utf8>(self.reason, self.at, text)
    }
}

/// An encoding whose code units have a value of type `u32`. The function `part_of` needs this value.
pub trait Numbered: EncodingType {
    /// Returns the value of a code unit.
    fn number_of(unit: Self::CodeUnit) -> u32;
}

impl Numbered for Utf8 {
    #[inline(always)]
    fn number_of(byte: u8) -> u32 {
        u32::from(byte)
    }
}

impl Numbered for Utf16 {
    #[inline(always)]
    fn number_of(unit: u16) -> u32 {
        u32::from(unit)
    }
}

/// Returns the part of the text that is wrong. The position of the error is `place`, and its reason is `reason`.
#[inline(always)]
pub fn part_of<T: Numbered>(reason: Reason, place: usize, text: &[T::CodeUnit]) -> WrongPart {
    let at = place.min(text.len());
    let before = at.saturating_sub(1);
    match extent_of(reason) {
        Extent::Byte => WrongPart {
            begin: at,
            end: if at < text.len() { at + 1 } else { at },
        },
        Extent::TwoDigits => WrongPart {
            begin: at.saturating_sub(2),
            end: at,
        },
        Extent::Front => WrongPart { begin: 0, end: at },
        Extent::Number => WrongPart {
            begin: begin_of_number::<T>(text, at),
            end: end_of_digits::<T>(text, at),
        },
        Extent::Group => WrongPart {
            begin: begin_of_number::<T>(text, before),
            end: at,
        },
        Extent::NumberBeforeUnit => WrongPart {
            begin: begin_of_number::<T>(text, before),
            end: before,
        },
        Extent::Bracket => WrongPart {
            begin: begin_of_bracket::<T>(text, at),
            end: at,
        },
    }
}

/// Returns where the wrong part is for a reason.
fn extent_of(reason: Reason) -> Extent {
    match reason {
        Reason::MinusZeroYear | Reason::TimeReadsAsMonthDay | Reason::TimeReadsAsYearMonth => {
            Extent::Front
        }
        Reason::DateGroupRange | Reason::TimeGroupRange => Extent::Number,
        Reason::DateUnitOrder | Reason::TimeUnitOrder => Extent::Group,
        Reason::DateUnitRange => Extent::NumberBeforeUnit,
        Reason::FirstNameForm
        | Reason::FirstOffsetForm
        | Reason::UnrecognizedCritical
        | Reason::CriticalDuplicateCalendar => Extent::Bracket,
        _ if is_range_of_two_digits(reason) => Extent::TwoDigits,
        _ => Extent::Byte,
    }
}

/// Returns whether the reason is a number of two digits that is out of its range.
fn is_range_of_two_digits(reason: Reason) -> bool {
    matches!(
        reason,
        Reason::MonthRange
            | Reason::DayRange
            | Reason::MonthDayMonthRange
            | Reason::MonthDayRange
            | Reason::HourRange
            | Reason::MinuteRange
            | Reason::SecondRange
            | Reason::OffsetHourRange
            | Reason::OffsetMinuteRange
            | Reason::OffsetSecondRange
            | Reason::ZoneOffsetHourRange
            | Reason::ZoneOffsetMinuteRange
            | Reason::ZoneOffsetSecondRange
            | Reason::MonthFieldRange
            | Reason::DayFieldRange
            | Reason::HourFieldRange
            | Reason::MinuteFieldRange
            | Reason::SecondFieldRange
            | Reason::OffsetHourFieldRange
            | Reason::OffsetMinuteFieldRange
    )
}

/// Returns whether the value is that of a digit.
fn is_digit(number: u32) -> bool {
    48 <= number && number <= 57
}

/// Returns whether a code unit with this value can be part of a number in a duration. Such a code unit is a digit, `.` or `,`.
fn is_of_number(number: u32) -> bool {
    is_digit(number) || number == 46 || number == 44
}

/// Returns whether the value is that of `[`.
fn is_opening(number: u32) -> bool {
    number == 91
}

/// Returns the index at which the number begins that ends before `end`. The number can have a fraction.
#[inline(always)]
fn begin_of_number<T: Numbered>(text: &[T::CodeUnit], end: usize) -> usize {
    let mut front = &text[..end];
    while let [before @ .., last] = front {
        if !is_of_number(T::number_of(*last)) {
            return front.len();
        }
        front = before;
    }
    0
}

/// Returns the index of the first code unit from `start` on that is not a digit. Returns the length of the text if there is none.
fn end_of_digits<T: Numbered>(text: &[T::CodeUnit], start: usize) -> usize {
    let mut end = start;
    while end < text.len() && is_digit(T::number_of(text[end])) {
        end += 1;
    }
    end
}

/// Returns the index of the last `[` before `end`, or 0 if there is none.
#[inline(always)]
fn begin_of_bracket<T: Numbered>(text: &[T::CodeUnit], end: usize) -> usize {
    let mut front = &text[..end];
    while let [before @ .., last] = front {
        if is_opening(T::number_of(*last)) {
            return before.len();
        }
        front = before;
    }
    0
}
