// Made by tools/to_rust.py of crates/ixdtf_explanations/src/hint/offsets.rt. Do not edit.

//! Hints about an offset, and about what stands before it and after it.

use crate::hint::shapes::{
    after_space, byte_at, ends_in_half_day, is_abbreviation, is_dash, is_gmt, is_offset, is_utc,
};
use crate::hint::times::{after_minute_field, date_before_time};
use crate::hint::{Hint, at_bracket, at_end, at_start};
use crate::wording::begins_with_offset;

/// Returns the hint where an offset may follow.
pub(super) fn before_offset(rest: &[u8]) -> Hint {
    if byte_at(rest, 0) == b' ' && is_offset(after_space(rest)) {
        Hint::BeforeNext("remove the space before ")
    } else if is_dash(rest) {
        Hint::Fixed("write `-` instead")
    } else if is_utc(after_space(rest)) {
        Hint::Fixed("write `Z` for UTC")
    } else if is_gmt(after_space(rest)) {
        Hint::Fixed("write `Z` for GMT")
    } else if is_abbreviation(after_space(rest)) {
        Hint::Fixed("write an offset such as -05:00 instead of the abbreviation")
    } else if after_space(rest).len() == 2 && ends_in_half_day(rest) {
        Hint::Fixed("write the hour as 00 to 23, without AM or PM")
    } else {
        Hint::Nothing
    }
}

/// Returns the hint after an offset.
pub(super) fn after_offset(front: &[u8], rest: &[u8]) -> Hint {
    if begins_with_offset(front) {
        at_end(rest)
    } else {
        at_bracket(rest)
    }
}

/// Returns the hint after an hour or a minute of an offset.
pub(super) fn after_offset_minute(front: &[u8], rest: &[u8]) -> Hint {
    after_minute_field(rest).or_else(after_offset(front, rest))
}

/// Returns the hint after the hour of an offset.
pub(super) fn after_offset_hour(text: &[u8], front: &[u8], rest: &[u8]) -> Hint {
    date_before_time(text, front).or_else(after_offset_minute(front, rest))
}

/// Returns the hint after an offset that cannot have seconds.
pub(super) fn after_offset_field(rest: &[u8]) -> Hint {
    if byte_at(rest, 0) == b':' && byte_at(rest, 1).is_ascii_digit() {
        Hint::Fixed("an offset has no seconds here")
    } else {
        after_rfc3339(rest)
    }
}

/// Returns the hint after a date-time of RFC 3339.
pub(super) fn after_rfc3339(rest: &[u8]) -> Hint {
    if byte_at(rest, 0) == b'[' {
        Hint::Fixed("RFC 3339 has no brackets; remove them, or read the text by RFC 9557")
    } else {
        at_end(rest)
    }
}

/// Returns the hint where an offset has to begin.
pub(super) fn at_offset(rest: &[u8]) -> Hint {
    if is_dash(rest) {
        Hint::Fixed("write `-` instead")
    } else {
        at_start(rest)
    }
}
