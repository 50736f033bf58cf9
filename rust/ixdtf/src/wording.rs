// Made by tools/to_rust.py of crates/ixdtf_explanations/src/wording.rt. Do not edit.

//! The words of the message of each reason.

use crate::Reason;

/// The words of a message, and what it shows of the text.
#[derive(Clone, Copy)]
pub(crate) enum Wording {
    /// Words alone.
    Fixed(&'static str),
    /// Words, and the character at the position of the error.
    Found(&'static str),
    /// The part of the text that is wrong, between two fixed parts of the message.
    AroundPart(&'static str, &'static str),
    /// The unit of a duration, between two fixed parts of the message. The unit is the character before the position of the error.
    AroundUnit(&'static str, &'static str),
}

/// What the words of a reason depend on, besides the reason: what stands around the position of the error.
#[derive(Clone, Copy)]
pub(crate) struct Context<'a> {
    /// The bytes before the position.
    front: &'a [u8],
    /// The byte at the position, or `None` at the end of the text.
    next: Option<u8>,
}

/// Returns the words of the message of a reason.
#[inline(always)]
pub(crate) fn wording_of(reason: Reason, place: Context<'_>) -> Wording {
    match reason {
        Reason::YearStart => expected(
            place,
            "the text is empty; expected a year of four digits",
            "expected a year of four digits, found ",
        ),
        Reason::YearDigits => expected(
            place,
            "the text ends in the year; expected four digits",
            "expected a digit of the year, which has four, found ",
        ),
        Reason::ExtendedYearDigits => expected(
            place,
            "the text ends in the year; expected a sign and six digits",
            "expected a digit of the year, which has six after a sign, found ",
        ),
        Reason::MinusZeroYear => Wording::Fixed("the year is -000000, and year 0 is written 0000"),
        Reason::AfterYear | Reason::AfterYearInYearMonth => expected(
            place,
            "the text ends after the year; expected `-` and the month",
            "expected `-` or a digit of the month, found ",
        ),
        Reason::MonthDigits | Reason::MonthDayMonthDigits | Reason::MonthFieldDigits => expected(
            place,
            "the text ends in the month; expected two digits",
            "expected a digit of the month, which has two, found ",
        ),
        Reason::MonthRange | Reason::MonthDayMonthRange | Reason::MonthFieldRange =>
            Wording::AroundPart("the month is ", ", and has to be 01 to 12"),
        Reason::AfterHyphenedMonth | Reason::AfterMonthField => expected(
            place,
            "the text ends after the month; expected `-` and the day",
            "expected `-` after the month, found ",
        ),
        Reason::AfterBasicMonth if place.is_next(b'-') => Wording::Fixed(
            "found `-` before the day, but none before the month",
        ),
        Reason::AfterBasicMonth => expected(
            place,
            "the text ends after the month; expected the day",
            "expected a digit of the day, which has two, found ",
        ),
        Reason::DayDigits | Reason::MonthDayDayDigits | Reason::DayFieldDigits => expected(
            place,
            "the text ends in the day; expected two digits for the month and for the day",
            "expected a digit of the day, which has two, found ",
        ),
        Reason::DayRange | Reason::MonthDayRange | Reason::DayFieldRange => Wording::AroundPart(
            "the day is ",
            to_day(place.last_day()),
        ),
        Reason::AfterDate if place.is_digit_next() => Wording::Found(
            "expected `T`, a space, `[` or the end after the two digits of the day, found ",
        ),
        Reason::AfterDate => Wording::Found(
            "expected `T`, a space, `[` or the end after the date, found ",
        ),
        Reason::AfterYearMonth => Wording::Found("expected `[` or the end after the month, found "),
        Reason::MonthDayStart => expected(
            place,
            "the text is empty; expected a month and a day",
            "expected a month of two digits, found ",
        ),
        Reason::MonthDayHyphen => expected(
            place,
            "the text ends after `-`; expected a second `-` and the month",
            "expected a second `-` before the month, found ",
        ),
        Reason::AfterMonthDayMonth => expected(
            place,
            "the text ends after the month; expected `-` and the day",
            "expected `-` or a digit of the day, found ",
        ),
        Reason::AfterMonthDay => Wording::Found("expected `[` or the end after the day, found "),
        Reason::TimeStart => expected(
            place,
            "the text is empty; expected a time",
            "expected `T` or an hour of two digits, found ",
        ),
        Reason::TimeReadsAsMonthDay => Wording::AroundPart(
            "`",
            "` may be a month and a day; write `T` before a time",
        ),
        Reason::TimeReadsAsYearMonth => Wording::AroundPart(
            "`",
            "` may be a year and a month; write `T` before a time",
        ),
        Reason::HourStart => expected(
            place,
            "the text ends before the hour; expected two digits",
            "expected a digit of the hour, which has two, found ",
        ),
        Reason::HourDigit | Reason::HourFieldDigits => expected(
            place,
            "the text ends in the hour; expected two digits",
            "expected a digit of the hour, which has two, found ",
        ),
        Reason::HourRange | Reason::HourFieldRange => Wording::AroundPart(
            "the hour is ",
            ", and has to be 00 to 23",
        ),
        Reason::AfterHour => Wording::Found(
            "expected `:`, a digit, an offset, `[` or the end after the hour, found ",
        ),
        Reason::MinuteDigits | Reason::MinuteFieldDigits => expected(
            place,
            "the text ends in the minute; expected two digits",
            "expected a digit of the minute, which has two, found ",
        ),
        Reason::MinuteRange | Reason::MinuteFieldRange => Wording::AroundPart(
            "the minute is ",
            ", and has to be 00 to 59",
        ),
        Reason::AfterBasicMinute if place.is_next(b':') => Wording::Fixed(
            "found `:` before the second, but none before the minute",
        ),
        Reason::AfterBasicMinute => Wording::Found(
            "expected a digit, an offset, `[` or the end after the minute, found ",
        ),
        Reason::AfterColonMinute if place.is_digit_next() => Wording::Found(
            "expected `:` before the second, as before the minute, found ",
        ),
        Reason::AfterColonMinute => Wording::Found(
            "expected `:`, an offset, `[` or the end after the minute, found ",
        ),
        Reason::SecondDigits | Reason::SecondFieldDigits => expected(
            place,
            "the text ends in the second; expected two digits",
            "expected a digit of the second, which has two, found ",
        ),
        Reason::SecondRange | Reason::SecondFieldRange => Wording::AroundPart(
            "the second is ",
            ", and has to be 00 to 60",
        ),
        Reason::AfterSecond => Wording::Found(
            "expected `.`, an offset, `[` or the end after the second, found ",
        ),
        Reason::FractionStart | Reason::AfterPoint | Reason::GroupFractionStart => expected(
            place,
            "the text ends before the fraction; expected a digit",
            "expected a digit of the fraction, found ",
        ),
        Reason::AfterFraction => Wording::Found(
            "expected a digit, an offset, `[` or the end after the fraction, found ",
        ),
        Reason::OffsetHourStart | Reason::ZoneOffsetHourStart => expected(
            place,
            "the text ends before the offset's hour; expected two digits",
            "expected a digit of the offset's hour, which has two, found ",
        ),
        Reason::OffsetHourDigit | Reason::ZoneOffsetHourDigit | Reason::OffsetHourFieldDigits =>
            expected(
                place,
                "the text ends in the offset's hour; expected two digits",
                "expected a digit of the offset's hour, which has two, found ",
            ),
        Reason::OffsetHourRange | Reason::ZoneOffsetHourRange | Reason::OffsetHourFieldRange =>
            Wording::AroundPart("the offset's hour is ", ", and has to be 00 to 23"),
        Reason::OffsetAfterHour if place.is_lone_offset() => Wording::Found(
            "expected `:`, a digit or the end after the offset's hour, found ",
        ),
        Reason::OffsetAfterHour => Wording::Found(
            "expected `:`, a digit, `[` or the end after the offset's hour, found ",
        ),
        Reason::OffsetMinuteDigits
        | Reason::ZoneOffsetMinuteDigits
        | Reason::OffsetMinuteFieldDigits => expected(
            place,
            "the text ends in the offset's minute; expected two digits",
            "expected a digit of the offset's minute, which has two, found ",
        ),
        Reason::OffsetMinuteRange
        | Reason::ZoneOffsetMinuteRange
        | Reason::OffsetMinuteFieldRange => Wording::AroundPart(
            "the offset's minute is ",
            ", and has to be 00 to 59",
        ),
        Reason::OffsetAfterBasicMinute if place.is_next(b':') => Wording::Fixed(
            "found `:` before the offset's second, but none before its minute",
        ),
        Reason::OffsetAfterBasicMinute if place.is_lone_offset() => Wording::Found(
            "expected a digit or the end after the offset's minute, found ",
        ),
        Reason::OffsetAfterBasicMinute => Wording::Found(
            "expected a digit, `[` or the end after the offset's minute, found ",
        ),
        Reason::OffsetAfterColonMinute if place.is_digit_next() => Wording::Found(
            "expected `:` before the offset's second, as before its minute, found ",
        ),
        Reason::OffsetAfterColonMinute if place.is_lone_offset() => Wording::Found(
            "expected `:` or the end after the offset's minute, found ",
        ),
        Reason::OffsetAfterColonMinute => Wording::Found(
            "expected `:`, `[` or the end after the offset's minute, found ",
        ),
        Reason::OffsetSecondDigits | Reason::ZoneOffsetSecondDigits => expected(
            place,
            "the text ends in the offset's second; expected two digits",
            "expected a digit of the offset's second, which has two, found ",
        ),
        Reason::OffsetSecondRange | Reason::ZoneOffsetSecondRange => Wording::AroundPart(
            "the offset's second is ",
            ", and has to be 00 to 59",
        ),
        Reason::OffsetAfterSecond if place.is_lone_offset() => Wording::Found(
            "expected `.` or the end after the offset's second, found ",
        ),
        Reason::OffsetAfterSecond => Wording::Found(
            "expected `.`, `[` or the end after the offset's second, found ",
        ),
        Reason::OffsetFractionStart | Reason::ZoneOffsetFractionStart => expected(
            place,
            "the text ends before the offset's fraction; expected a digit",
            "expected a digit of the offset's fraction, found ",
        ),
        Reason::OffsetAfterFraction if place.is_lone_offset() => Wording::Found(
            "expected a digit or the end after the offset's fraction, found ",
        ),
        Reason::OffsetAfterFraction => Wording::Found(
            "expected a digit, `[` or the end after the offset's fraction, found ",
        ),
        Reason::ZoneOffsetAfterHour if place.is_in_bracket() => expected(
            place,
            "the text ends after the offset's hour; expected `]`",
            "expected `:`, a digit or `]` after the offset's hour, found ",
        ),
        Reason::ZoneOffsetAfterHour => Wording::Found(
            "expected `:`, a digit or the end after the offset's hour, found ",
        ),
        Reason::ZoneOffsetAfterBasicMinute | Reason::ZoneOffsetAfterColonMinute
            if place.has_seconds() && place.is_in_bracket() => Wording::Found(
            "a time zone's offset has no seconds; expected `]`, found ",
        ),
        Reason::ZoneOffsetAfterBasicMinute | Reason::ZoneOffsetAfterColonMinute
            if place.has_seconds() => Wording::Found(
            "a time zone's offset has no seconds; expected the end, found ",
        ),
        Reason::ZoneOffsetAfterBasicMinute | Reason::ZoneOffsetAfterColonMinute
            if place.is_in_bracket() => expected(
            place,
            "the text ends after the offset's minute; expected `]`",
            "expected `]` after the offset's minute, found ",
        ),
        Reason::ZoneOffsetAfterBasicMinute | Reason::ZoneOffsetAfterColonMinute => Wording::Found(
            "expected the end after the offset's minute, found ",
        ),
        Reason::ZoneOffsetAfterSecond if place.is_in_bracket() => expected(
            place,
            "the text ends after the offset's second; expected `]`",
            "expected `]` after the offset's second, found ",
        ),
        Reason::ZoneOffsetAfterSecond => Wording::Found(
            "expected the end after the offset's second, found ",
        ),
        Reason::ZoneOffsetAfterFraction if place.is_in_bracket() => expected(
            place,
            "the text ends after the offset's fraction; expected `]`",
            "expected `]` after the offset's fraction, found ",
        ),
        Reason::ZoneOffsetAfterFraction => Wording::Found(
            "expected the end after the offset's fraction, found ",
        ),
        Reason::OffsetStart => expected(
            place,
            "the text is empty; expected an offset",
            "expected `+` or `-` before the offset's hour, found ",
        ),
        Reason::AfterZulu => Wording::Found("expected `[` or the end after `Z`, found "),
        Reason::FourDigits if place.is_first() => expected(
            place,
            "the text is empty; expected a year of four digits",
            "expected a year of four digits, found ",
        ),
        Reason::FourDigits => expected(
            place,
            "the text ends in the year; expected four digits",
            "expected a digit of the year, which has four, found ",
        ),
        Reason::AfterFourDigits => expected(
            place,
            "the text ends after the year; expected `-` and the month",
            "expected `-` after the year, found ",
        ),
        Reason::AfterDayField => expected(
            place,
            "the text ends after the date; expected `T` and the time",
            "expected `T` after the date, found ",
        ),
        Reason::AfterHourField => expected(
            place,
            "the text ends after the hour; expected `:` and the minute",
            "expected `:` after the hour, found ",
        ),
        Reason::AfterMinuteField => expected(
            place,
            "the text ends after the minute; expected `:` and the second",
            "expected `:` after the minute, found ",
        ),
        Reason::AfterSecondField => expected(
            place,
            "the text ends after the second; expected an offset",
            "expected `.` or an offset after the second, found ",
        ),
        Reason::AfterOffsetHourField => expected(
            place,
            "the text ends after the offset's hour; expected `:` and its minute",
            "expected `:` after the offset's hour, found ",
        ),
        Reason::AfterOffsetMinuteField => Wording::Found(
            "expected the end, or `[` in RFC 9557, after the offset's minute, found ",
        ),
        Reason::AfterSecfrac => expected(
            place,
            "the text ends after the fraction; expected an offset",
            "expected a digit or an offset after the fraction, found ",
        ),
        Reason::AfterUtc => Wording::Found(
            "expected the end, or `[` in RFC 9557, after `Z`, found ",
        ),
        Reason::IdentifierStart => expected(
            place,
            "the text is empty; expected a time zone",
            "expected a letter, `+` or `-` at the start of the time zone, found ",
        ),
        Reason::ZoneNameStart => expected(
            place,
            "the text is empty; expected a time zone's name",
            "expected a letter at the start of the time zone's name, found ",
        ),
        Reason::InZoneName if place.is_in_bracket() => expected(
            place,
            "the text ends in the time zone's name; expected `]`",
            "expected `]` or more of the time zone's name, found ",
        ),
        Reason::InZoneName if place.is_next(b']') => Wording::Fixed(
            "expected the end after the time zone's name, found `]`",
        ),
        Reason::InZoneName => Wording::Found(
            "expected the end or more of the time zone's name, found ",
        ),
        Reason::AfterZoneSlash => expected(
            place,
            "the text ends after `/`; expected more of the time zone's name",
            "expected a letter of the time zone's name after `/`, found ",
        ),
        Reason::FirstBracketStart => expected(
            place,
            "the text ends after `[`; expected a time zone or an annotation",
            "expected a letter, `+` or `-` after `[`, found ",
        ),
        Reason::FirstCriticalStart => expected(
            place,
            "the text ends after `[!`; expected a time zone or an annotation",
            "expected a letter, `+` or `-` after `[!`, found ",
        ),
        Reason::FirstBracketScan => expected(
            place,
            "the text ends in the first bracket; expected `=` or `]`",
            "expected `=`, `]` or more of the first bracket, found ",
        ),
        Reason::FirstNameForm => Wording::Fixed(
            "a part of the time zone's name does not begin with a letter, and has to",
        ),
        Reason::FirstOffsetForm => Wording::Fixed(
            "the time zone's offset has no `:`, and has to be like `+05:30`",
        ),
        Reason::AfterBracket => Wording::Found("expected `[` or the end after `]`, found "),
        Reason::KeyStart => expected(
            place,
            "the text ends after `[`; expected the annotation's key",
            "expected a lower-case letter of the annotation's key, found ",
        ),
        Reason::CriticalKeyStart => expected(
            place,
            "the text ends after `[!`; expected the annotation's key",
            "expected a lower-case letter of the annotation's key, found ",
        ),
        Reason::InKey => expected(
            place,
            "the text ends in the annotation's key; expected `=`",
            "expected `=`, a lower-case letter, a digit, `-` or `_` in the key, found ",
        ),
        Reason::ValueStart => expected(
            place,
            "the text ends after `=`; expected the annotation's value",
            "expected a letter or digit of the annotation's value, found ",
        ),
        Reason::InValue => expected(
            place,
            "the text ends in the annotation's value; expected `]`",
            "expected `]` or more of the annotation's value, found ",
        ),
        Reason::AfterValueHyphen => expected(
            place,
            "the text ends after `-`; expected more of the annotation's value",
            "expected more of the annotation's value after `-`, found ",
        ),
        Reason::DurationStart => expected(
            place,
            "the text is empty; expected a duration",
            "expected `P`, `+` or `-` at the start of the duration, found ",
        ),
        Reason::AfterDurationSign => expected(
            place,
            "the text ends after the sign; expected `P`",
            "expected `P` after the sign, found ",
        ),
        Reason::AfterDurationDesignator => expected(
            place,
            "the text ends after `P`; expected a number or `T`",
            "expected a number or `T` after `P`, found ",
        ),
        Reason::AfterDateGroups => Wording::Found(
            "expected a number, `T` or the end after the unit, found ",
        ),
        Reason::AfterTimeDesignator => expected(
            place,
            "the text ends after `T`; expected a number",
            "expected a number after `T`, found ",
        ),
        Reason::AfterTimeGroups => Wording::Found(
            "expected a number or the end after the unit, found ",
        ),
        Reason::AfterFractionGroup => Wording::Found(
            "expected the end after the unit with a fraction, found ",
        ),
        Reason::DateGroupDigits if place.is_time_unit_next() => Wording::Found(
            "expected `T` before a number of hours or seconds, found ",
        ),
        Reason::DateGroupDigits => expected(
            place,
            "the text ends after the number; expected `Y`, `M`, `W` or `D`",
            "expected a digit, `Y`, `M`, `W` or `D` after the number, found ",
        ),
        Reason::TimeGroupDigits => expected(
            place,
            "the text ends after the number; expected `H`, `M` or `S`",
            "expected a digit, `.`, `H`, `M` or `S` after the number, found ",
        ),
        Reason::DateGroupRange | Reason::TimeGroupRange => Wording::Fixed(
            "the number is too great, and has to be at most 18446744073709551615",
        ),
        Reason::DateUnitOrder => Wording::AroundUnit(
            "the unit ",
            " stands too late; the order is Y, M, W, D, each once",
        ),
        Reason::TimeUnitOrder => Wording::AroundUnit(
            "the unit ",
            " stands too late; the order is H, M, S, each once",
        ),
        Reason::DateUnitRange => Wording::AroundUnit(
            "the number before ",
            " is too great, and has to be at most 4294967295",
        ),
        Reason::GroupFractionDigits => expected(
            place,
            "the text ends after the fraction; expected `H`, `M` or `S`",
            "expected a digit, `H`, `M` or `S` after the fraction, found ",
        ),
        Reason::UnrecognizedCritical => Wording::Fixed(
            "the annotation's key is not known; without `!`, the annotation would be ignored",
        ),
        Reason::CriticalDuplicateCalendar => Wording::Fixed(
            "a later calendar differs from the first, and one is critical (`!`)",
        ),
    }
}

/// Returns the words for a line that expects more text: other words at the end of the text than at a character that does not fit.
#[inline(always)]
fn expected(place: Context<'_>, at_end: &'static str, other: &'static str) -> Wording {
    match place.next {
        None => Wording::Fixed(at_end),
        Some(_) => Wording::Found(other),
    }
}

/// Returns the end of the message about a day that the month does not have.
fn to_day(last_day: u8) -> &'static str {
    match last_day {
        28 => ", and has to be 01 to 28",
        29 => ", and has to be 01 to 29",
        30 => ", and has to be 01 to 30",
        _ => ", and has to be 01 to 31",
    }
}

impl<'a> Context<'a> {
    /// Returns what stands around a position, which is between these two parts of a text.
    #[inline(always)]
    pub(crate) fn of(front: &'a [u8], rest: &[u8]) -> Context<'a> {
        Context {
            front,
            next: rest.first().copied(),
        }
    }

    /// Returns whether the position is the beginning of the text.
    fn is_first(self) -> bool {
        self.front.is_empty()
    }

    /// Returns whether the text before the position is a sign, and then only digits, `:`, `.` and `,`. So the text is an offset alone.
    fn is_lone_offset(self) -> bool {
        begins_with_offset(self.front)
    }

    /// Returns whether the position is in a bracket.
    fn is_in_bracket(self) -> bool {
        self.front.contains(&b'[')
    }

    /// Returns the last day of the month, if a day stands before the position.
    fn last_day(self) -> u8 {
        last_day_before(self.front)
    }

    /// Returns whether this byte is at the position.
    fn is_next(self, byte: u8) -> bool {
        match self.next {
            None => false,
            Some(next) => next == byte,
        }
    }

    /// Returns whether a digit is at the position.
    fn is_digit_next(self) -> bool {
        match self.next {
            None => false,
            Some(next) => next.is_ascii_digit(),
        }
    }

    /// Returns whether the letter of hours or of seconds is at the position.
    fn is_time_unit_next(self) -> bool {
        match self.next {
            None => false,
            Some(next) => matches!(next, b'H' | b'h' | b'S' | b's'),
        }
    }

    /// Returns whether seconds follow the position, which is after a minute.
    fn has_seconds(self) -> bool {
        self.is_digit_next() || self.is_next(b':')
    }
}

/// Returns whether the text is a sign, and then only digits, `:`, `.` and `,`.
pub(crate) fn begins_with_offset(front: &[u8]) -> bool {
    match front {
        [b'+' | b'-', rest @ ..] => are_of_clock(rest),
        _ => false,
    }
}

/// Returns whether all bytes can be in an offset after its sign.
fn are_of_clock(bytes: &[u8]) -> bool {
    bytes.iter().all(|byte| is_of_clock(*byte))
}

/// Returns whether the byte can be in an offset after its sign.
fn is_of_clock(byte: u8) -> bool {
    byte.is_ascii_digit() || byte == b':' || byte == b'.' || byte == b','
}

/// Returns the last day of the month before the two digits of a day, with which the text ends. If there is no year before the month,
/// it is the last day of the month in a leap year.
fn last_day_before(front: &[u8]) -> u8 {
    let month = without_hyphen(without_two(front));
    let year = four_digits(without_hyphen(without_two(month)));
    match two_digits(month) {
        2 if year % 400 == 0 || year % 4 == 0 && year % 100 != 0 => 29,
        2 => 28,
        4 | 6 | 9 | 11 => 30,
        _ => 31,
    }
}

/// Returns the text without the last two bytes, or the empty text if it has fewer.
fn without_two(front: &[u8]) -> &[u8] {
    match front {
        [rest @ .., _, _] => rest,
        _ => &[],
    }
}

/// Returns the text without a hyphen at its end, if there is one.
fn without_hyphen(front: &[u8]) -> &[u8] {
    match front {
        [rest @ .., b'-'] => rest,
        _ => front,
    }
}

/// Returns the number of the two digits with which the text ends, or 0 if it has fewer than two bytes.
fn two_digits(front: &[u8]) -> u16 {
    match front {
        [.., tens, ones] => 10 * digit_of(*tens) + digit_of(*ones),
        _ => 0,
    }
}

/// Returns the number of the four digits with which the text ends, or 0 if it has fewer than four bytes.
fn four_digits(front: &[u8]) -> u16 {
    match front {
        [.., thousands, hundreds, tens, ones] => {
            1000 * digit_of(*thousands)
                + 100 * digit_of(*hundreds)
                + 10 * digit_of(*tens)
                + digit_of(*ones)
        }
        _ => 0,
    }
}

/// Returns the number of a digit. The result for another byte is some number from 0 to 9.
fn digit_of(byte: u8) -> u16 {
    u16::from(byte.saturating_sub(b'0') % 10)
}
