// Made by tools/to_rust.py of crates/ixdtf_explanations/src/hint/dates.rt. Do not edit.

//! Hints about a date, and about what follows it.

use crate::hint::shapes::{
    are_digits, byte_at, byte_before, is_dash, is_day_of_year, is_month_day, is_next_part,
    is_offset, is_one_digit, is_other_separator, is_time, is_unix_time, is_week,
};
use crate::hint::{Hint, at_end, at_start};

/// Returns the hint where a `-` may follow.
pub(super) fn before_hyphen(rest: &[u8]) -> Hint {
    if is_dash(rest) || is_other_separator(rest) {
        Hint::Fixed("write `-` instead")
    } else {
        Hint::Nothing
    }
}

/// Returns the hint where a week may follow by mistake.
fn week(rest: &[u8]) -> Hint {
    if is_week(rest) {
        Hint::Fixed("a week is not read; write the month instead")
    } else {
        Hint::Nothing
    }
}

/// Returns the hint after two digits of a month, where the third digit of a day of the year may follow by mistake.
fn day_of_year(rest: &[u8]) -> Hint {
    if is_day_of_year(rest) {
        Hint::Fixed("a day of the year is not read; write the month instead")
    } else {
        Hint::Nothing
    }
}

/// Returns the hint about a text that may be a number of seconds.
pub(super) fn unix_time(text: &[u8]) -> Hint {
    if is_unix_time(text) {
        Hint::Fixed("a Unix time is not read; convert it first")
    } else {
        Hint::Nothing
    }
}

/// Returns the hint where a date has to begin.
pub(super) fn at_date(rest: &[u8]) -> Hint {
    if matches!(byte_at(rest, 0), b'P' | b'p')
        && (byte_at(rest, 1).is_ascii_digit() || matches!(byte_at(rest, 1), b'T' | b't'))
    {
        Hint::Fixed("a duration is no date; read it as a duration")
    } else if matches!(byte_at(rest, 0), b'T' | b't') && byte_at(rest, 1).is_ascii_digit() {
        Hint::Fixed("a time is no date; read it as a time")
    } else if byte_at(rest, 0).is_ascii_alphabetic() {
        Hint::Fixed("write the year first, with four digits, then `-` and the month")
    } else {
        at_start(rest)
    }
}

/// Returns the hint after one to three digits of a year.
pub(super) fn in_year(front: &[u8], rest: &[u8]) -> Hint {
    if front.len() == 2 && byte_at(rest, 0) == b':' {
        Hint::Fixed("a time is no date; read it as a time")
    } else if front.len() < 3 && is_next_part(rest) {
        Hint::Fixed("write the year first, with four digits, then `-` and the month")
    } else {
        Hint::Nothing
    }
}

/// Returns the hint before or in a year that has no sign.
pub(super) fn in_four_digits(front: &[u8], rest: &[u8]) -> Hint {
    if !front.is_empty() {
        in_year(front, rest)
    } else if matches!(byte_at(rest, 0), b'+' | b'-') && byte_at(rest, 1).is_ascii_digit() {
        Hint::Fixed("a year is 0000 to 9999 here, without a sign")
    } else {
        at_date(rest)
    }
}

/// Returns the hint after a year.
pub(super) fn after_year(rest: &[u8]) -> Hint {
    week(rest).or_else(before_hyphen(rest))
}

/// Returns the hint after a year that has no sign.
pub(super) fn after_four_digits(text: &[u8], rest: &[u8]) -> Hint {
    if byte_at(rest, 0).is_ascii_digit()
        && (byte_at(rest, 1) == b'-'
            || byte_at(rest, 1).is_ascii_digit() && byte_at(rest, 2) == b'-')
    {
        Hint::Fixed("a year is 0000 to 9999 here, without a sign")
    } else {
        after_year(rest).or_else(unix_time(text))
    }
}

/// Returns the hint in a month.
pub(super) fn in_month(front: &[u8], rest: &[u8]) -> Hint {
    if is_one_digit(front, b'1') && byte_at(rest, 0) == b'-' {
        Hint::AroundLast("write the month as `0", "`")
    } else if front.len() == 5 && are_digits(front) && is_month_day(rest) {
        Hint::BeforeFront("write a year after 9999 with a sign and six digits, like +0")
    } else if byte_before(front, 1) == b'-' {
        week(rest)
    } else {
        Hint::Nothing
    }
}

/// Returns the hint after a month that is out of its range.
pub(super) fn month_range(text: &[u8], front: &[u8], rest: &[u8]) -> Hint {
    if byte_before(front, 3) == b'-' {
        day_of_year(rest)
    } else {
        unix_time(text)
    }
}

/// Returns the hint after a month.
pub(super) fn after_month(rest: &[u8]) -> Hint {
    day_of_year(rest).or_else(before_hyphen(rest))
}

/// Returns the hint in a day.
pub(super) fn in_day(front: &[u8], rest: &[u8]) -> Hint {
    if is_one_digit(front, b'1') && matches!(byte_at(rest, 0), b'T' | b't' | b' ' | b'[') {
        Hint::AroundLast("write the day as `0", "`")
    } else if rest.is_empty() && front.len() == 7 && are_digits(front) {
        Hint::Fixed("a day of the year is not read; write the month instead")
    } else {
        Hint::Nothing
    }
}

/// Returns the hint after a date, where only a time may follow.
pub(super) fn after_date_field(rest: &[u8]) -> Hint {
    if is_offset(rest) {
        Hint::Fixed("an offset needs a time before it")
    } else {
        Hint::Nothing
    }
}

/// Returns the hint after a date with which the text may end.
pub(super) fn after_date(text: &[u8], rest: &[u8]) -> Hint {
    if is_time(rest) {
        Hint::Fixed("write `T` before the time")
    } else {
        after_date_field(rest).or_else(at_end(rest).or_else(unix_time(text)))
    }
}
