// Made by tools/to_rust.py of crates/ixdtf_explanations/src/hint/times.rt. Do not edit.

//! Hints about a time, and about what follows it.

use crate::hint::offsets::before_offset;
use crate::hint::shapes::{
    after_colon, are_blank, byte_at, byte_before, ends_in_half_day, follows_clock, is_date,
    is_fraction, is_one_digit,
};
use crate::hint::{Hint, at_bracket};

/// Returns the hint where an hour has to begin.
pub(super) fn at_hour(front: &[u8], rest: &[u8]) -> Hint {
    if byte_before(front, 1) != b' ' {
        Hint::Nothing
    } else if are_blank(rest) {
        Hint::Fixed("remove the white space at the end")
    } else if byte_at(rest, 0) == b'[' {
        Hint::BeforeNext("remove the space before ")
    } else if rest.len() == 2 && byte_at(rest, 0) == b'B' && byte_at(rest, 1) == b'C' {
        Hint::Fixed("write a year BC with a sign and six digits, like -000043 for 44 BC")
    } else {
        Hint::Nothing
    }
}

/// Returns the hint in a number of a time or of an offset, with the words before the digit.
pub(super) fn in_clock(words: &'static str, front: &[u8], rest: &[u8]) -> Hint {
    if is_one_digit(front, b'0') && follows_clock(byte_at(rest, 0)) {
        Hint::AroundLast(words, "`")
    } else {
        Hint::Nothing
    }
}

/// Returns the hint in an hour.
pub(super) fn in_hour(front: &[u8], rest: &[u8]) -> Hint {
    if byte_at(rest, 0) == b':' && ends_in_half_day(rest) {
        Hint::Fixed("write the hour as 00 to 23, without AM or PM")
    } else {
        in_clock("write the hour as `0", front, rest)
    }
}

/// Returns the hint about a text that may be a date with a time, where only a time is read.
pub(super) fn date_before_time(text: &[u8], front: &[u8]) -> Hint {
    if front.len() < 8 && is_date(text) {
        Hint::Fixed("a date is not read before the time")
    } else {
        Hint::Nothing
    }
}

/// Returns the hint after an hour that is out of its range.
pub(super) fn hour_range(text: &[u8], front: &[u8], rest: &[u8]) -> Hint {
    date_before_time(text, front).or_else(end_of_day(front, rest))
}

/// Returns the hint after an hour that may be the end of a day.
fn end_of_day(front: &[u8], rest: &[u8]) -> Hint {
    if is_end_of_day(front, rest) {
        Hint::Fixed("the end of a day is 00:00 of the next day")
    } else {
        Hint::Nothing
    }
}

/// Returns whether the hour before the position is 24, and the minute after it, if there is one, is 00.
fn is_end_of_day(front: &[u8], rest: &[u8]) -> bool {
    byte_before(front, 2) == b'2'
        && byte_before(front, 1) == b'4'
        && (rest.is_empty()
            || byte_at(after_colon(rest), 0) == b'0' && byte_at(after_colon(rest), 1) == b'0')
}

/// Returns the hint after a time with which the text may end.
pub(super) fn after_second(rest: &[u8]) -> Hint {
    at_bracket(rest).or_else(before_offset(rest))
}

/// Returns the hint after an hour or a minute, where only a `:` may follow.
pub(super) fn after_minute_field(rest: &[u8]) -> Hint {
    if is_fraction(rest) {
        Hint::Fixed("only the second has a fraction")
    } else {
        Hint::Nothing
    }
}

/// Returns the hint after an hour or a minute of a time.
pub(super) fn after_minute(rest: &[u8]) -> Hint {
    after_minute_field(rest).or_else(after_second(rest))
}
