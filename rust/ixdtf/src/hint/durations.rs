// Made by tools/to_rust.py of crates/ixdtf_explanations/src/hint/durations.rt. Do not edit.

//! Hints about a duration.

use crate::hint::shapes::{byte_at, byte_before, is_fraction};
use crate::hint::{Hint, at_end, at_start};

/// Returns the hint where a duration has to begin.
pub(super) fn at_duration(rest: &[u8]) -> Hint {
    if byte_at(rest, 0).is_ascii_digit() {
        Hint::Fixed("a duration begins with `P`, like P1DT2H30M")
    } else {
        at_start(rest)
    }
}

/// Returns the hint after the `P` or the `T` of a duration.
pub(super) fn after_designator(rest: &[u8]) -> Hint {
    if matches!(byte_at(rest, 0), b'+' | b'-') {
        Hint::Fixed("a sign can only stand before `P`")
    } else {
        Hint::Nothing
    }
}

/// Returns the hint after a unit of a duration.
pub(super) fn after_group(rest: &[u8]) -> Hint {
    after_designator(rest).or_else(at_end(rest))
}

/// Returns the hint in a number of years, months, weeks or days.
pub(super) fn in_date_number(rest: &[u8]) -> Hint {
    if is_fraction(rest) {
        Hint::Fixed("only hours, minutes and seconds have a fraction, like PT0.5H")
    } else if matches!(byte_at(rest, 0), b'H' | b'h' | b'S' | b's') {
        Hint::Fixed("write `T` before hours, minutes and seconds")
    } else {
        Hint::Nothing
    }
}

/// Returns the hint in a number of hours, minutes or seconds.
pub(super) fn in_time_number(rest: &[u8]) -> Hint {
    if matches!(byte_at(rest, 0), b'Y' | b'y' | b'W' | b'w' | b'D' | b'd') {
        Hint::Fixed("write years, months, weeks and days before `T`")
    } else {
        Hint::Nothing
    }
}

/// Returns the hint after a unit of a date that is not in order.
pub(super) fn unit_order(front: &[u8]) -> Hint {
    if matches!(byte_before(front, 1), b'M' | b'm') {
        Hint::Fixed("`M` before `T` is months; write `T` before minutes")
    } else {
        Hint::Nothing
    }
}
