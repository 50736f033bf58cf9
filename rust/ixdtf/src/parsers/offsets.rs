// Made by tools/to_rust.py of crates/ixdtf_times/src/offsets.rt. Do not edit.

//! Functions that read offsets from UTC.

use crate::parsers::time::{Clock, TimeShape, close_after, parse_clock};
use crate::Reason;
use crate::encoding::EncodingType;
use crate::records::{
    FullPrecisionOffset, MinutePrecisionOffset, Sign, TimeRecord, UtcOffsetRecord,
    UtcOffsetRecordOrZ,
};
use crate::classes::{is_annotation_open, is_ascii_sign, is_hyphen};
use crate::cursor::Cursor;

/// What follows the core of a text. The core is the part of a text before its first `[`.
#[derive(Clone, Copy)]
pub enum AfterCore {
    /// The end of the text.
    End,
    /// A `[`, which has been consumed.
    Bracket,
}

impl AfterCore {
    /// Returns whether a `[` follows the core.
    #[inline(always)]
    pub fn opens_bracket(self) -> bool {
        match self {
            AfterCore::End => false,
            AfterCore::Bracket => true,
        }
    }
}

/// Returns the sign for a `+` or a `-`.
#[inline(always)]
pub fn sign_from(byte: u8) -> Sign {
    if is_hyphen(byte) {
        Sign::Negative
    } else {
        Sign::Positive
    }
}

/// Returns the offset with this sign, and with the hour and the minute of `time`.
#[inline(always)]
pub fn minute_offset(sign: u8, time: TimeRecord) -> MinutePrecisionOffset {
    MinutePrecisionOffset {
        sign: sign_from(sign),
        hour: time.hour,
        minute: time.minute,
    }
}

/// Returns the hour of an offset in the first two columns. Returns `None` if they do not fit, or if the hour is too
/// great.
#[inline(always)]
fn fixed_hour<'a, T: EncodingType>(cursor: &mut Cursor<'a, T>) -> Option<u8> {
    cursor.fixed_number_up_to(0, 23)
}

/// Returns the minute of an offset after a colon at index 2. Returns `None` if a column does not fit, or if the minute
/// is too great.
#[inline(always)]
fn fixed_minute<'a, T: EncodingType>(cursor: &mut Cursor<'a, T>) -> Option<u8> {
    cursor.fixed_letter(2, b':')?;
    cursor.fixed_number_up_to(3, 59)
}

/// Consumes an offset `HH:MM` after its sign, if the text ends after it or continues with `[`.
///
/// Writes the offset to `found`. Returns `End` if the text ends after the offset. Returns `Bracket` if a `[` follows the
/// offset, and then consumes the `[` too. Returns `None`, and consumes nothing, if the input has another form or a
/// number is out of range.
#[inline(always)]
pub fn take_fixed_offset<'a, T: EncodingType>(
    cursor: &mut Cursor<'a, T>,
    sign: u8,
    found: &mut Option<UtcOffsetRecordOrZ>,
) -> Option<AfterCore> {
    if cursor.remaining() < 5 {
        return None;
    }
    let hour = fixed_hour(cursor)?;
    let minute = fixed_minute(cursor)?;
    let offset = MinutePrecisionOffset {
        sign: sign_from(sign),
        hour,
        minute,
    };
    if cursor.remaining() == 5 {
        cursor.advance_by(5);
        *found = Some(UtcOffsetRecordOrZ::Offset(UtcOffsetRecord::MinutePrecision(offset)));
        return Some(AfterCore::End);
    }
    let next = cursor.byte_at(5);
    if !is_annotation_open(next) {
        return None;
    }
    cursor.advance_by(6);
    *found = Some(UtcOffsetRecordOrZ::Offset(UtcOffsetRecord::MinutePrecision(offset)));
    Some(AfterCore::Bracket)
}

/// Consumes an offset `HH:MM` after its sign, if it is the complete remaining input.
///
/// Returns `None`, and consumes nothing, if the input has another length or another form, or if a number is out of
/// range.
#[inline(always)]
pub fn take_last_offset<'a, T: EncodingType>(
    cursor: &mut Cursor<'a, T>,
    sign: u8,
) -> Option<MinutePrecisionOffset> {
    if cursor.remaining() != 5 {
        return None;
    }
    let hour = fixed_hour(cursor)?;
    let minute = fixed_minute(cursor)?;
    let offset = MinutePrecisionOffset {
        sign: sign_from(sign),
        hour,
        minute,
    };
    cursor.advance_by(5);
    Some(offset)
}

/// Consumes an offset `HH:MM` after its sign, whatever follows it.
///
/// Returns `None`, and consumes nothing, if the input has another form, or if a number is out of range.
#[inline(always)]
pub fn take_numeric_offset<'a, T: EncodingType>(
    cursor: &mut Cursor<'a, T>,
    sign: u8,
) -> Option<MinutePrecisionOffset> {
    if cursor.remaining() < 5 {
        return None;
    }
    let hour = fixed_hour(cursor)?;
    let minute = fixed_minute(cursor)?;
    let offset = MinutePrecisionOffset {
        sign: sign_from(sign),
        hour,
        minute,
    };
    cursor.advance_by(5);
    Some(offset)
}

/// Returns the record of an offset: a `FullPrecisionOffset` if it has seconds, and otherwise a `MinutePrecision`.
#[inline(always)]
pub fn offset_from(sign: u8, shape: TimeShape, time: TimeRecord) -> UtcOffsetRecord {
    let second = time.second;
    let fraction = time.fraction;
    let minute_precision_offset = minute_offset(sign, time);
    if !shape.writes_seconds() {
        return UtcOffsetRecord::MinutePrecision(minute_precision_offset);
    }
    UtcOffsetRecord::FullPrecisionOffset(FullPrecisionOffset {
        minute_precision_offset,
        second,
        fraction,
    })
}

/// Reads an offset, and expects the end of the input.
#[inline(always)]
pub fn parse_offset_text<'a, T: EncodingType>(
    cursor: &mut Cursor<'a, T>,
) -> Result<UtcOffsetRecord, Reason> {
    match cursor.look(Reason::OffsetStart)? {
        Some(byte) if is_ascii_sign(byte) => {
            cursor.advance();
            if let Some(offset) = take_last_offset(cursor, byte) {
                return Ok(UtcOffsetRecord::MinutePrecision(offset));
            }
            let mut time = TimeRecord::default();
            let shape = parse_clock(cursor, Clock::Offset, &mut time)?;
            close_after(cursor, Clock::Offset, shape)?;
            Ok(offset_from(byte, shape, time))
        }
        _ => Err(Reason::OffsetStart),
    }
}
