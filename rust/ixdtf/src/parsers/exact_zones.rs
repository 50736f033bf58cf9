// Made by tools/to_rust.py of crates/ixdtf_brackets/src/exact_zones.rt. Do not edit.

//! Functions that test whether the zone of a first bracket has the form of RFC 9557, section 4.1.
//!
//! A reader that does not use this test also accepts other zones, for example names with a part `.` or `..`.

use crate::parsers::brackets::{Bracket, parse_first_bracket};
use crate::Reason;
use crate::encoding::EncodingType;
use crate::records::{TimeZoneAnnotation, TimeZoneRecord};
use crate::classes::{
    is_annotation_close, is_time_separator, is_tz_char, is_tz_leading_char, is_tz_name_separator,
};
use crate::cursor::Cursor;

/// Which code units of a part of a name were read.
#[derive(Clone, Copy)]
pub enum PartForm {
    /// No code unit.
    Start,
    /// Only a `.`.
    OneDot,
    /// Only `..`.
    TwoDots,
    /// Code units that can be a complete part.
    Whole,
}

impl PartForm {
    /// Returns the form after one more code unit, or `None` if this code unit cannot continue the name.
    #[inline(always)]
    fn after(self, byte: u8) -> Option<PartForm> {
        match self {
            PartForm::Start if byte == b'.' => Some(PartForm::OneDot),
            PartForm::Start if is_tz_leading_char(byte) => Some(PartForm::Whole),
            PartForm::Start => None,
            PartForm::OneDot if byte == b'.' => Some(PartForm::TwoDots),
            PartForm::Whole if is_tz_name_separator(byte) => Some(PartForm::Start),
            _ if is_tz_char(byte) => Some(PartForm::Whole),
            _ => None,
        }
    }

    /// Returns whether the part can end here.
    #[inline(always)]
    fn may_end(self) -> bool {
        matches!(self, PartForm::Whole)
    }
}

/// Tests the parts of a name up to its `]`: no part begins with a digit, `-` or `+`, and none is `.` or `..`.
fn has_exact_parts<'a, T: EncodingType>(cursor: &mut Cursor<'a, T>) -> bool {
    let mut form = PartForm::Start;
    loop {
        let byte = match cursor.look(Reason::FirstNameForm) {
            Ok(Some(byte)) => byte,
            Ok(None) => return false,
            Err(_) => return false,
        };
        match form.after(byte) {
            Some(next) => form = next,
            None => return form.may_end() && is_annotation_close(byte),
        }
        cursor.advance();
    }
}

/// Tests whether the zone of a first bracket has the form of RFC 9557, section 4.1. `start` is the input after the `[`.
///
/// The position of the cursor does not change. The function is not inlined, because it is called only if a zone must have
/// this form, after the bracket has been read.
#[inline(never)]
fn is_exact_zone<'a, T: EncodingType>(
    cursor: &mut Cursor<'a, T>,
    start: &'a [T::CodeUnit],
    zone: &TimeZoneAnnotation<'a, T>,
) -> bool {
    let mut again = cursor.fork_at(start);
    if zone.critical {
        again.advance();
    }
    let is_exact = match &zone.tz {
        TimeZoneRecord::Name(_) => has_exact_parts(&mut again),
        TimeZoneRecord::Offset(_) => is_time_separator(again.byte_at(3)),
    };
    is_exact
}

/// Returns the `Reason` for a zone that does not have the form of RFC 9557, section 4.1: `FirstNameForm` for a name, and
/// `FirstOffsetForm` for an offset.
#[inline(always)]
fn zone_stop<'a, T: EncodingType>(zone: &TimeZoneAnnotation<'a, T>) -> Reason {
    match &zone.tz {
        TimeZoneRecord::Name(_) => Reason::FirstNameForm,
        TimeZoneRecord::Offset(_) => Reason::FirstOffsetForm,
    }
}

/// Reads a first bracket after its `[`. If `is_exact`, a zone must have the form of RFC 9557, section 4.1.
///
/// If the zone is a name without this form, returns `FirstNameForm`. If it is an offset without this form, returns
/// `FirstOffsetForm`. In both cases, the cursor is then after the `]`.
#[inline(always)]
pub fn parse_bracket_by<'a, T: EncodingType>(
    cursor: &mut Cursor<'a, T>,
    is_exact: bool,
) -> Result<Bracket<'a, T>, Reason> {
    let start = cursor.rest();
    let bracket = parse_first_bracket(cursor)?;
    if is_exact {
        if let Bracket::Zone(zone) = &bracket {
            if !is_exact_zone(cursor, start, zone) {
                return Err(zone_stop(zone));
            }
        }
    }
    Ok(bracket)
}
