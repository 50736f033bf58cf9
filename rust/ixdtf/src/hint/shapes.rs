// Made by tools/to_rust.py of crates/ixdtf_explanations/src/hint/shapes.rt. Do not edit.

//! Tests of the bytes around the position of an error, for example whether an offset begins there.

/// Returns whether the text is white space, and not empty.
pub(super) fn is_white_space(rest: &[u8]) -> bool {
    !rest.is_empty() && are_blank(rest)
}

/// Returns whether the text begins with an offset: a `Z` that is no letter of a word, or a sign and a digit.
pub(super) fn is_offset(rest: &[u8]) -> bool {
    match byte_at(rest, 0) {
        b'Z' | b'z' => !byte_at(rest, 1).is_ascii_alphabetic(),
        b'+' | b'-' => byte_at(rest, 1).is_ascii_digit(),
        _ => false,
    }
}

/// Returns whether the text begins with a character that looks like `-` in UTF-8: U+2010, U+2013 or U+2212.
pub(super) fn is_dash(rest: &[u8]) -> bool {
    byte_at(rest, 0) == 0xE2
        && (byte_at(rest, 1) == 0x80 && matches!(byte_at(rest, 2), 0x90 | 0x93)
            || byte_at(rest, 1) == 0x88 && byte_at(rest, 2) == 0x92)
}

/// Returns whether the text begins with a separator of dates that is no `-`, and then a digit.
pub(super) fn is_other_separator(rest: &[u8]) -> bool {
    matches!(byte_at(rest, 0), b'/' | b'.') && byte_at(rest, 1).is_ascii_digit()
}

/// Returns whether the text begins with a separator of a date, and then a letter or a digit.
pub(super) fn is_next_part(rest: &[u8]) -> bool {
    matches!(byte_at(rest, 0), b'-' | b'/' | b'.' | b' ')
        && (byte_at(rest, 1).is_ascii_alphabetic() || byte_at(rest, 1).is_ascii_digit())
}

/// Returns whether the text begins with a fraction.
pub(super) fn is_fraction(rest: &[u8]) -> bool {
    matches!(byte_at(rest, 0), b'.' | b',') && byte_at(rest, 1).is_ascii_digit()
}

/// Returns whether the text begins with a week of ISO 8601, such as `W09`.
pub(super) fn is_week(rest: &[u8]) -> bool {
    matches!(byte_at(rest, 0), b'W' | b'w') && byte_at(rest, 1).is_ascii_digit()
}

/// Returns whether the text begins with the last digit of a day of the year, after which the date ends.
pub(super) fn is_day_of_year(rest: &[u8]) -> bool {
    byte_at(rest, 0).is_ascii_digit()
        && (rest.len() == 1 || matches!(byte_at(rest, 1), b'T' | b't' | b' ' | b'['))
}

/// Returns whether the text begins with a month and a day, which have a `-` before them.
pub(super) fn is_month_day(rest: &[u8]) -> bool {
    byte_at(rest, 0) == b'-'
        && byte_at(rest, 1).is_ascii_digit()
        && byte_at(rest, 2).is_ascii_digit()
        && byte_at(rest, 3) == b'-'
        && byte_at(rest, 4).is_ascii_digit()
        && byte_at(rest, 5).is_ascii_digit()
}

/// Returns whether the text begins with a date with hyphens.
pub(super) fn is_date(text: &[u8]) -> bool {
    are_digits(&text[..text.len().min(4)]) && is_month_day(without_two(without_two(text)))
}

/// Returns whether the text is a number of seconds since 1970, from 2001 to 2030.
///
/// It can have a fraction. It can also have 3, 6 or 9 digits more, because many programs count milliseconds, microseconds or
/// nanoseconds.
pub(super) fn is_unix_time(text: &[u8]) -> bool {
    byte_at(text, 0) == b'1'
        && matches!(byte_at(text, 1), b'0'..=b'8')
        && are_digits(&text[..text.len().min(10)])
        && (matches!(byte_at(text, 10), b'.' | b',')
            || matches!(text.len(), 10 | 13 | 16 | 19) && are_digits(text))
}

/// Returns whether the text begins with an hour, a minute and perhaps a second, after which no digit follows.
pub(super) fn is_time(rest: &[u8]) -> bool {
    is_hour(rest)
        && is_minute(after_colon(without_two(rest)))
        && is_end_of_time(without_two(after_colon(without_two(rest))))
}

/// Returns whether the text begins with an hour.
fn is_hour(rest: &[u8]) -> bool {
    match byte_at(rest, 0) {
        b'0' | b'1' => byte_at(rest, 1).is_ascii_digit(),
        b'2' => matches!(byte_at(rest, 1), b'0'..=b'3'),
        _ => false,
    }
}

/// Returns whether the text begins with a minute.
fn is_minute(rest: &[u8]) -> bool {
    matches!(byte_at(rest, 0), b'0'..=b'5') && byte_at(rest, 1).is_ascii_digit()
}

/// Returns whether a time ends here, or after a second.
fn is_end_of_time(rest: &[u8]) -> bool {
    if is_minute(after_colon(rest)) {
        !byte_at(after_colon(rest), 2).is_ascii_digit()
    } else {
        !byte_at(rest, 0).is_ascii_digit()
    }
}

/// Returns whether the text ends with `AM` or `PM`, in letters of any case.
pub(super) fn ends_in_half_day(rest: &[u8]) -> bool {
    matches!(byte_before(rest, 2), b'A' | b'a' | b'P' | b'p')
        && matches!(byte_before(rest, 1), b'M' | b'm')
}

/// Returns whether the text is `UTC`, or begins with `UTC` and a bracket.
pub(super) fn is_utc(rest: &[u8]) -> bool {
    byte_at(rest, 0) == b'U'
        && byte_at(rest, 1) == b'T'
        && byte_at(rest, 2) == b'C'
        && ends_or_opens(rest, 3)
}

/// Returns whether the text is `GMT`, or begins with `GMT` and a bracket.
pub(super) fn is_gmt(rest: &[u8]) -> bool {
    byte_at(rest, 0) == b'G'
        && byte_at(rest, 1) == b'M'
        && byte_at(rest, 2) == b'T'
        && ends_or_opens(rest, 3)
}

/// Returns whether the text is an abbreviation of a time zone with three to five letters. A bracket can follow.
pub(super) fn is_abbreviation(rest: &[u8]) -> bool {
    byte_at(rest, 0).is_ascii_uppercase()
        && byte_at(rest, 1).is_ascii_uppercase()
        && byte_at(rest, 2).is_ascii_uppercase()
        && (ends_or_opens(rest, 3)
            || byte_at(rest, 3).is_ascii_uppercase()
                && (ends_or_opens(rest, 4)
                    || byte_at(rest, 4).is_ascii_uppercase() && ends_or_opens(rest, 5)))
}

/// Returns whether the text ends at the index, or a bracket begins there.
fn ends_or_opens(rest: &[u8], index: usize) -> bool {
    rest.len() == index || byte_at(rest, index) == b'['
}

/// Returns whether the text ends with one digit of a number that needs two. The digit is not less than `least`.
pub(super) fn is_one_digit(front: &[u8], least: u8) -> bool {
    let digit = byte_before(front, 1);
    least <= digit
        && digit <= b'9'
        && (front.len() == 1
            || matches!(
                byte_before(front, 2),
                b'+' | b'-' | b':' | b'T' | b't' | b' '
            ))
}

/// Returns whether the byte can follow a number of a time or of an offset.
pub(super) fn follows_clock(byte: u8) -> bool {
    matches!(
        byte,
        b':' | b'.' | b',' | b'Z' | b'z' | b'+' | b'-' | b'[' | b']'
    )
}

/// Returns whether the text ends with the key `u-ca` of a bracket, in letters of any case.
pub(super) fn ends_in_calendar_key(front: &[u8]) -> bool {
    is_one_of(byte_before(front, 5), b'[', b'!')
        && is_one_of(byte_before(front, 4), b'U', b'u')
        && byte_before(front, 3) == b'-'
        && is_one_of(byte_before(front, 2), b'C', b'c')
        && is_one_of(byte_before(front, 1), b'A', b'a')
}

/// Returns whether the byte is one of these two.
fn is_one_of(byte: u8, one: u8, other: u8) -> bool {
    byte == one || byte == other
}

/// Returns whether the text has a `=`, and no `]` before it.
pub(super) fn has_equals(rest: &[u8]) -> bool {
    match rest.iter().find(|byte| ends_key(**byte)) {
        Some(byte) => *byte == b'=',
        None => false,
    }
}

/// Returns whether the byte ends a key: `=`, or the `]` of a bracket without a value.
fn ends_key(byte: u8) -> bool {
    byte == b'=' || byte == b']'
}

/// Returns what follows the space, if the text begins with one. Otherwise returns the text.
pub(super) fn after_space(rest: &[u8]) -> &[u8] {
    match rest {
        [b' ', behind @ ..] => behind,
        _ => rest,
    }
}

/// Returns what follows the `:`, if the text begins with one. Otherwise returns the text.
pub(super) fn after_colon(rest: &[u8]) -> &[u8] {
    match rest {
        [b':', behind @ ..] => behind,
        _ => rest,
    }
}

/// Returns the text without its first two bytes.
fn without_two(rest: &[u8]) -> &[u8] {
    match rest {
        [_, _, behind @ ..] => behind,
        _ => &[],
    }
}

/// Returns whether all bytes are digits.
pub(super) fn are_digits(bytes: &[u8]) -> bool {
    bytes.iter().all(|byte| byte.is_ascii_digit())
}

/// Returns whether all bytes are white space.
pub(super) fn are_blank(bytes: &[u8]) -> bool {
    bytes.iter().all(|byte| is_blank(*byte))
}

/// Returns whether the byte is a space, a tab, a newline or a carriage return.
pub(super) fn is_blank(byte: u8) -> bool {
    matches!(byte, b' ' | b'\t' | b'\n' | b'\r')
}

/// Returns the byte at the index, or 0 if the text is not longer than that.
pub(super) fn byte_at(text: &[u8], index: usize) -> u8 {
    match text.get(index) {
        Some(byte) => *byte,
        None => 0,
    }
}

/// Returns the byte at an index that is counted from the end: 1 is the last byte. Returns 0 if the text is shorter than that.
pub(super) fn byte_before(front: &[u8], index: usize) -> u8 {
    if front.len() < index {
        0
    } else {
        byte_at(front, front.len() - index)
    }
}
