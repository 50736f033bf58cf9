// Made by tools/to_rust.py of crates/ixdtf_checks/src/skipped.rt. Do not edit.

//! Which lines have no text, and are skipped.

use crate::line_part::{line_in, without_return};
use crate::request::Skips;

/// Returns the line without the bytes that do not belong to it. Returns `None` if the line is skipped.
///
/// Usually, no option asks to skip lines, and the line is not the first one of a file. In this case, `kept_line` only makes a test
/// and removes a carriage return. So `kept_line` is inlined.
#[inline(always)]
pub fn kept_line<'a>(skips: &Option<Skips>, is_first: bool, bytes: &'a [u8]) -> Option<&'a [u8]> {
    if is_first || skips.is_some() {
        call_kept_with_care(skips, is_first, bytes)
    } else {
        Some(without_return(bytes))
    }
}

/// Calls `kept_with_care`, and makes a new `Option` from its result.
///
/// This function is inlined, and is a function of its own for this reason: Rattle's compiler sets the result of the called function to
/// zero where its code begins. So this is not done for the other lines.
#[allow(clippy::needless_match)]
#[inline(always)]
fn call_kept_with_care<'a>(
    skips: &Option<Skips>,
    is_first: bool,
    bytes: &'a [u8],
) -> Option<&'a [u8]> {
    match kept_with_care(skips, is_first, bytes) {
        None => None,
        Some(line) => Some(line),
    }
}

/// Does the work of `kept_line`, and is correct for every line. It is called for the first line of a file, and for all
/// lines if an option asks to skip lines. The function is not inlined, because usually most lines do not need it.
#[inline(never)]
fn kept_with_care<'a>(skips: &Option<Skips>, is_first: bool, bytes: &'a [u8]) -> Option<&'a [u8]> {
    let line = line_in(is_first, bytes);
    if is_skipped(skips, is_first, line) {
        None
    } else {
        Some(line)
    }
}

/// Returns whether the line is skipped.
fn is_skipped(skips: &Option<Skips>, is_first: bool, line: &[u8]) -> bool {
    match skips {
        None => false,
        Some(skips) => is_skipped_by(skips, is_first, line),
    }
}

/// Returns whether the line is skipped: it has the names of the fields, or is blank, or is a comment.
fn is_skipped_by(skips: &Skips, is_first: bool, line: &[u8]) -> bool {
    (skips.header && is_first) || (skips.blank && is_blank(line)) || is_comment(skips.comment, line)
}

/// Returns whether the line is empty, or has only spaces and tabs.
fn is_blank(line: &[u8]) -> bool {
    for byte in line {
        if *byte != b' ' && *byte != b'\t' {
            return false;
        }
    }
    true
}

/// Returns whether the line begins with the byte of comments. Returns `false` if there is no such byte.
fn is_comment(comment: Option<u8>, line: &[u8]) -> bool {
    match (comment, line) {
        (Some(byte), [first, ..]) => *first == byte,
        _ => false,
    }
}
