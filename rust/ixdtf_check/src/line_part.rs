// Made by tools/to_rust.py of crates/ixdtf_checks/src/line_part.rt. Do not edit.

//! Finds the part of a line that is its text.

use crate::csv::{Broken, QUOTE, field_in_record, quotes_in};
use crate::request::{Extent, Field};
use crate::verdict::LINE_LIMIT;
use ixdtf_buffers::place::{pass_many, place_of};

/// If at least this many fields come before a field, separators are counted in steps of sixteen bytes.
const MANY_FIELDS: usize = 4;

/// A part of a line.
#[derive(Clone, Copy)]
pub struct Part<'a> {
    /// The number of bytes of the line before the part.
    pub start: usize,
    /// The text of the part. If the part is a field in quotes, each doubled quote of the field is one quote in this
    /// text.
    pub text: &'a [u8],
    /// Whether the part is a field in quotes. If this is `true`, the line contains each quote of `text` twice.
    pub is_quoted: bool,
}

impl Part<'_> {
    /// Returns the number of bytes that the first `count` bytes of the text take up in the line. If the part is a field in quotes, each
    /// quote of the text takes up two bytes.
    #[inline(always)]
    pub fn width_of(self, count: usize) -> usize {
        if self.is_quoted {
            count + quotes_in(&self.text[..count])
        } else {
            count
        }
    }
}

/// The reason why a line is refused before its text is read.
#[derive(Clone, Copy)]
pub enum Lost {
    /// The line has too few fields.
    NoField,
    /// The line is no record of RFC 4180.
    Broken(Broken),
}

/// Returns the line without the bytes that do not belong to it. These are a byte order mark at the beginning of the first line of a
/// file, and a carriage return at the end of any line.
pub fn line_in(is_first: bool, bytes: &[u8]) -> &[u8] {
    without_return(if is_first { without_mark(bytes) } else { bytes })
}

/// Returns the bytes without the byte order mark at the beginning, if there is one.
fn without_mark(bytes: &[u8]) -> &[u8] {
    if bytes.len() >= 3 && bytes[0] == 0xEF && bytes[1] == 0xBB && bytes[2] == 0xBF {
        &bytes[3..]
    } else {
        bytes
    }
}

/// Returns the line without the carriage return at its end, if there is one.
pub fn without_return(line: &[u8]) -> &[u8] {
    match line.last() {
        Some(b'\r') => &line[..line.len() - 1],
        _ => line,
    }
}

/// Returns the text of the line. The text begins where the given field begins. There is one exception: if the field belongs
/// to a record of RFC 4180 and is in quotes, the text begins after the opening quote. Returns an error if the line is refused
/// before its text is read.
///
/// `plain_fields` and `csv_field` are not inlined, so their results are in memory. The functions that call them take the `Part` or the
/// `Lost` out of such a result, and make a new `Result` from it. So the result of `part_of` can be in registers. A single field
/// (`Extent::One`) is found by `plain_field`, which is inlined. So its result is not written to memory.
#[inline(always)]
pub fn part_of<'a>(
    field: Field,
    line: &'a [u8],
    unquoted: &'a mut [u8; LINE_LIMIT],
) -> Result<Part<'a>, Lost> {
    match field.extent {
        Extent::One => plain_field(field.separator, field.before, line),
        Extent::More(more) => call_plain_fields(field.separator, field.before, more, line),
        Extent::Csv => call_csv_field(field.separator, field.before, line, unquoted),
    }
}

/// Calls `plain_fields`, and makes a new `Result` from its result.
///
/// This function and `call_csv_field` are inlined, and are functions of their own for this reason: Rattle's compiler sets the result
/// of the called function to zero where their code begins. So this is not done for a line of which a single field is read.
#[allow(clippy::needless_match)]
#[inline(always)]
fn call_plain_fields(
    separator: u8,
    before: usize,
    more: usize,
    line: &[u8],
) -> Result<Part<'_>, Lost> {
    match plain_fields(separator, before, more, line) {
        Ok(part) => Ok(part),
        Err(lost) => Err(lost),
    }
}

/// Calls `csv_field`, and makes a new `Result` from its result.
#[allow(clippy::needless_match)]
#[inline(always)]
fn call_csv_field<'a>(
    separator: u8,
    before: usize,
    line: &'a [u8],
    unquoted: &'a mut [u8; LINE_LIMIT],
) -> Result<Part<'a>, Lost> {
    match csv_field(separator, before, line, unquoted) {
        Ok(part) => Ok(part),
        Err(lost) => Err(lost),
    }
}

/// Returns the field that has `before` fields before it in a record of RFC 4180. Returns an error if the line is no record, or has
/// too few fields.
///
/// In a line without quotes, each field is what is between two separators. The first field begins at the beginning of the
/// line, and the last field ends at its end.
#[inline(never)]
fn csv_field<'a>(
    separator: u8,
    before: usize,
    line: &'a [u8],
    unquoted: &'a mut [u8; LINE_LIMIT],
) -> Result<Part<'a>, Lost> {
    match place_of(QUOTE, line) {
        None => plain_field(separator, before, line),
        Some(_) => field_in_record(separator, before, line, unquoted),
    }
}

/// Returns the field that has `before` fields before it. A field is what is between two separators. The first field begins at
/// the beginning of the line, and the last field ends at its end. Returns an error if there are too few fields.
#[inline(always)]
fn plain_field(separator: u8, before: usize, line: &[u8]) -> Result<Part<'_>, Lost> {
    match field_start(separator, before, line) {
        None => Err(Lost::NoField),
        Some(start) => Ok(Part {
            start,
            text: front_field(separator, &line[start..]),
            is_quoted: false,
        }),
    }
}

/// Returns the field that has `before` fields before it, together with `more` fields after it. Returns an error if there are too few
/// fields.
#[inline(never)]
fn plain_fields(separator: u8, before: usize, more: usize, line: &[u8]) -> Result<Part<'_>, Lost> {
    match field_start(separator, before, line) {
        None => Err(Lost::NoField),
        Some(start) => match front_fields(separator, more, &line[start..]) {
            None => Err(Lost::NoField),
            Some(text) => Ok(Part {
                start,
                text,
                is_quoted: false,
            }),
        },
    }
}

/// Returns the first field and `more` fields after it, with the separators between them. Returns `None` if there are too few fields.
#[inline(never)]
fn front_fields(separator: u8, more: usize, rest: &[u8]) -> Option<&[u8]> {
    match field_start(separator, more, rest) {
        None => None,
        Some(last) => Some(&rest[..last + front_field(separator, &rest[last..]).len()]),
    }
}

/// Returns the index at which the field after `before` other fields begins.
///
/// If many fields come before it, the function counts the separators in sixteen bytes at once. If the fields are short, this is
/// faster than one search for each field.
#[inline(always)]
fn field_start(separator: u8, before: usize, line: &[u8]) -> Option<usize> {
    if before < MANY_FIELDS {
        return near_field_start(separator, before, line);
    }
    let passed = pass_many(separator, before, line);
    match near_field_start(separator, passed.left, &line[passed.place..]) {
        None => None,
        Some(start) => Some(passed.place + start),
    }
}

/// Returns the same index as `field_start`. It searches for each separator on its own.
fn near_field_start(separator: u8, before: usize, line: &[u8]) -> Option<usize> {
    let mut start = 0;
    let mut left = before;
    while left > 0 {
        match place_of(separator, &line[start..]) {
            None => return None,
            Some(place) => start += place + 1,
        }
        left -= 1;
    }
    Some(start)
}

/// Returns the first field: the bytes before the first separator, or all bytes.
pub fn front_field(separator: u8, line: &[u8]) -> &[u8] {
    match place_of(separator, line) {
        None => line,
        Some(place) => &line[..place],
    }
}
