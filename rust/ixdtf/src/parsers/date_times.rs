// Made by tools/to_rust.py of crates/ixdtf_times/src/date_times.rt. Do not edit.

//! Functions that read `YYYY-MM-DDTHH:MM:SS` in the first nineteen columns of a text. The separator can also be `t` or
//! a space. Most texts begin in this form.

use crate::parsers::dates::{fixed_date, is_date};
use crate::parsers::time::{WholeTime, fixed_time};
use crate::Reason;
use crate::encoding::EncodingType;
use crate::records::DateRecord;
use crate::classes::is_date_time_separator;
use crate::cursor::Cursor;

/// Consumes a date, a separator and a time in the first nineteen columns.
///
/// Returns `None`, and consumes nothing, if a column does not fit, if the date does not exist, or if a number of the
/// time is out of range. If fewer than nineteen code units remain, none of them is read.
#[inline(always)]
pub fn take_fixed_date_time<'a, T: EncodingType>(
    cursor: &mut Cursor<'a, T>,
) -> Option<(DateRecord, WholeTime)> {
    let found = fixed_date_time(cursor)?;
    cursor.advance_by(19);
    Some(found)
}

/// Reads a date, a separator and a time in the first nineteen columns, and consumes nothing. Returns `None` if they do
/// not fit.
#[inline(always)]
fn fixed_date_time<'a, T: EncodingType>(
    cursor: &mut Cursor<'a, T>,
) -> Option<(DateRecord, WholeTime)> {
    if cursor.remaining() < 19 {
        return None;
    }
    let date = fixed_date(cursor)?;
    fixed_separator(cursor, 10)?;
    let time = fixed_time(cursor)?;
    if !is_date(date) {
        return None;
    }
    Some((date, time))
}

/// Returns the code unit at index `place`, if it can separate a date from a time, and otherwise `None`.
#[inline(always)]
fn fixed_separator<'a, T: EncodingType>(cursor: &mut Cursor<'a, T>, place: usize) -> Option<u8> {
    match cursor.look_at(place, Reason::AfterDate) {
        Ok(Some(byte)) if is_date_time_separator(byte) => Some(byte),
        _ => None,
    }
}
