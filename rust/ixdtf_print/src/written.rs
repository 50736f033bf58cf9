// Made by tools/to_rust.py of crates/ixdtf_print/src/written.rt. Do not edit.

//! Functions that write the parts of a canonical text into a formatter.

use crate::fields::{opening_of, put_minute_offset};
use ixdtf::encoding::Utf8;
use ixdtf::records::{IxdtfParseRecord, MinutePrecisionOffset, TimeZoneAnnotation, TimeZoneRecord};
use core::fmt;

/// Writes the zone and the calendar, in their brackets.
pub fn write_brackets(
    f: &mut fmt::Formatter<'_>,
    parsed: &IxdtfParseRecord<'_, Utf8>,
) -> fmt::Result {
    write_bracket(f, &parsed.tz)?;
    write_calendar(f, parsed.calendar)
}

/// Returns the first `count` bytes.
pub fn front_of(bytes: &[u8], count: usize) -> &[u8] {
    // `bytes` always has `count` bytes, as the proof shows. The compiler does not know the proof: because of this test,
    // it compiles no code for a panic.
    match bytes.get(..count) {
        Some(front) => front,
        None => bytes,
    }
}

/// Writes the zone in its bracket, if there is a zone.
fn write_bracket(
    f: &mut fmt::Formatter<'_>,
    note: &Option<TimeZoneAnnotation<'_, Utf8>>,
) -> fmt::Result {
    match note {
        None => Ok(()),
        Some(note) => {
            write_bytes(f, opening_of(note.critical))?;
            write_zone(f, &note.tz)?;
            f.write_str("]")
        }
    }
}

/// Writes the zone.
pub fn write_zone(
    f: &mut fmt::Formatter<'_>,
    zone: &TimeZoneRecord<'_, Utf8>,
) -> fmt::Result {
    match zone {
        TimeZoneRecord::Name(name) => write_bytes(f, name),
        TimeZoneRecord::Offset(offset) => write_minute_offset(f, *offset),
        _ => unreachable!(),
    }
}

/// Writes an offset with hours and minutes.
fn write_minute_offset(
    f: &mut fmt::Formatter<'_>,
    offset: MinutePrecisionOffset,
) -> fmt::Result {
    let mut bytes = [0; 6];
    put_minute_offset(&mut bytes, 0, offset);
    write_bytes(f, &bytes)
}

/// Writes the calendar in its bracket, if there is a calendar.
fn write_calendar(f: &mut fmt::Formatter<'_>, calendar: Option<&[u8]>) -> fmt::Result {
    match calendar {
        None => Ok(()),
        Some(value) => {
            f.write_str("[u-ca=")?;
            write_bytes(f, value)?;
            f.write_str("]")
        }
    }
}

/// Writes, for each byte, the character whose code point is the value of the byte. If a record has a canonical text, the
/// bytes of its names are ASCII. So for such a name, the function writes exactly the bytes of the name.
pub fn write_bytes(f: &mut fmt::Formatter<'_>, bytes: &[u8]) -> fmt::Result {
    for byte in bytes {
        write_byte(f, *byte)?;
    }
    Ok(())
}

/// Writes the character whose code point is the value of the byte.
fn write_byte(f: &mut fmt::Formatter<'_>, byte: u8) -> fmt::Result {
    let mut bytes = [0; 4];
    f.write_str(char::from(byte).encode_utf8(&mut bytes))
}
