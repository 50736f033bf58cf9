// Made by tools/to_rust.py of crates/ixdtf_explanations/src/hint/brackets.rt. Do not edit.

//! Hints about the name of a time zone, and about annotations.

use crate::hint::shapes::{byte_at, ends_in_calendar_key, has_equals, is_white_space};
use crate::hint::{Hint, at_start};

/// Returns the hint after a time zone.
pub(super) fn after_zone(front: &[u8], rest: &[u8]) -> Hint {
    if is_white_space(rest) && !front.contains(&b'[') {
        Hint::Fixed("remove the white space at the end")
    } else {
        Hint::Nothing
    }
}

/// Returns the hint where a letter of a time zone's name has to follow.
pub(super) fn after_slash(rest: &[u8]) -> Hint {
    if !byte_at(rest, 0).is_ascii() {
        Hint::Fixed("a time zone's name has no letters but A to Z and a to z")
    } else {
        Hint::Nothing
    }
}

/// Returns the hint where the name of a time zone has to begin.
pub(super) fn at_zone_name(rest: &[u8]) -> Hint {
    after_slash(rest).or_else(at_start(rest))
}

/// Returns the hint after a key.
fn after_key(front: &[u8], rest: &[u8]) -> Hint {
    if byte_at(rest, 0) == b' ' && ends_in_calendar_key(front) {
        Hint::Fixed("write `=` after the annotation's key")
    } else {
        Hint::Nothing
    }
}

/// Returns the hint in the name of a time zone.
pub(super) fn in_zone_name(front: &[u8], rest: &[u8]) -> Hint {
    if byte_at(rest, 0) == b' ' && byte_at(rest, 1).is_ascii_alphanumeric() {
        after_key(front, rest).or_else(Hint::Fixed("a time zone's name has `_` instead of a space"))
    } else if byte_at(rest, 0) == b'=' && ends_in_calendar_key(front) {
        Hint::Fixed("write an annotation's key in lower-case letters")
    } else {
        after_slash(rest).or_else(after_zone(front, rest))
    }
}

/// Returns the hint where the first bracket begins.
pub(super) fn at_first_key(rest: &[u8]) -> Hint {
    if byte_at(rest, 0) == b'=' {
        Hint::Fixed("an annotation has a key and a value, like u-ca=hebrew")
    } else {
        Hint::Nothing
    }
}

/// Returns the hint where a key has to begin or to go on.
pub(super) fn at_key(rest: &[u8]) -> Hint {
    if byte_at(rest, 0).is_ascii_uppercase() && has_equals(rest) {
        Hint::Fixed("write an annotation's key in lower-case letters")
    } else {
        at_first_key(rest)
    }
}

/// Returns the hint in a key.
pub(super) fn in_key(front: &[u8], rest: &[u8]) -> Hint {
    if byte_at(rest, 0) == b']' {
        Hint::Fixed("an annotation has a key and a value, like u-ca=hebrew")
    } else if byte_at(rest, 0) == b' ' {
        after_key(front, rest)
    } else {
        at_key(rest)
    }
}
