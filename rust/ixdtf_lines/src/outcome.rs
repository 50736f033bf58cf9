// Made by tools/to_rust.py of crates/ixdtf_answers/src/outcome.rt. Do not edit.

//! Writes the answer for a value or an error that a reader returned.

use crate::answer_fields::{
    add_date_field, add_duration, add_instant, add_offset, add_offset_field, add_time_field,
    add_zone_field_front, add_zone_front,
};
use ixdtf::ParseError;
use ixdtf::encoding::Utf8;
use ixdtf::records::{
    DurationParseRecord, IxdtfParseRecord, TimeZoneAnnotation, TimeZoneRecord, UtcOffsetRecord,
};
use ixdtf_buffers::adding::{ROOM, add_array, add_byte, add_bytes};
use ixdtf_buffers::error::RunError;
use ixdtf_buffers::output::Output;
use ixdtf_buffers::sink::Sink;
use ixdtf_print::error_parts;

/// Writes `ok`, each field that the record has, and a newline.
pub fn put_record<K: Sink>(
    output: &mut Output<'_, K>,
    room: &mut [u8; ROOM],
    parts: &IxdtfParseRecord<'_, Utf8>,
) -> Result<(), RunError> {
    let front = add_record_front(room, parts);
    let name = zone_field_name(&parts.tz);
    match parts.calendar {
        None => put_front_and_name(output, room, front, name),
        Some(calendar) => {
            output.put(&room[..front])?;
            put_name_and_calendar(output, name, calendar)
        }
    }
}

/// Adds `ok`, and the part of the record's fields that comes before the name of its zone. The name is not added. Returns the
/// index after the added bytes.
fn add_record_front(room: &mut [u8; ROOM], parts: &IxdtfParseRecord<'_, Utf8>) -> usize {
    let date = add_array(room, 0, b"ok");
    let time = add_date_field(room, date, parts.date);
    let offset = add_time_field(room, time, parts.time);
    let zone = add_offset_field(room, offset, parts.offset);
    add_zone_field_front(room, zone, &parts.tz)
}

/// Writes the first `front` bytes of the array, the name, and a newline.
pub fn put_front_and_name<K: Sink>(
    output: &mut Output<'_, K>,
    room: &mut [u8; ROOM],
    front: usize,
    name: &[u8],
) -> Result<(), RunError> {
    if name.is_empty() {
        let end = add_byte(room, front, b'\n');
        return output.put(&room[..end]);
    }
    output.put(&room[..front])?;
    output.put(name)?;
    output.put(b"\n")
}

/// Writes the name, which can be empty, the calendar, and a newline.
fn put_name_and_calendar<K: Sink>(
    output: &mut Output<'_, K>,
    name: &[u8],
    calendar: &[u8],
) -> Result<(), RunError> {
    output.put_all(&[name, b" calendar=".as_slice(), calendar, b"\n".as_slice()])
}

/// Returns the name of the zone, or no bytes if it has no name.
fn zone_field_name<'a>(note: &Option<TimeZoneAnnotation<'a, Utf8>>) -> &'a [u8] {
    match note {
        None => b"".as_slice(),
        Some(note) => zone_name(&note.tz),
    }
}

/// Returns the name of the zone, or no bytes if it has no name.
fn zone_name<'a>(zone: &TimeZoneRecord<'a, Utf8>) -> &'a [u8] {
    match zone {
        TimeZoneRecord::Name(name) => name,
        TimeZoneRecord::Offset(_) => b"".as_slice(),
        _ => unreachable!(),
    }
}

/// Writes `ok`, the offset, and a newline.
pub fn put_offset<K: Sink>(
    output: &mut Output<'_, K>,
    room: &mut [u8; ROOM],
    offset: UtcOffsetRecord,
) -> Result<(), RunError> {
    let field = add_array(room, 0, b"ok");
    let front = add_offset(room, field, offset);
    let end = add_byte(room, front, b'\n');
    output.put(&room[..end])
}

/// Writes `ok`, the zone, and a newline. Only a zone in brackets can be critical. A critical zone has a `!` after its `[`. This zone
/// was read without brackets. So the zone is not critical, and the answer has no `!` before the zone.
pub fn put_zone<K: Sink>(
    output: &mut Output<'_, K>,
    room: &mut [u8; ROOM],
    zone: &TimeZoneRecord<'_, Utf8>,
) -> Result<(), RunError> {
    let field = add_array(room, 0, b"ok");
    let front = add_zone_front(room, field, false, zone);
    put_front_and_name(output, room, front, zone_name(zone))
}

/// Writes `ok`, the duration, and a newline.
pub fn put_duration<K: Sink>(
    output: &mut Output<'_, K>,
    room: &mut [u8; ROOM],
    duration: DurationParseRecord,
) -> Result<(), RunError> {
    let field = add_array(room, 0, b"ok");
    let front = add_duration(room, field, duration);
    let end = add_byte(room, front, b'\n');
    output.put(&room[..end])
}

/// Writes `ok`, the instant of a record that `parse` returned, and a newline. If the record has no instant, writes `error no
/// instant` and a newline.
pub fn put_instant<K: Sink>(
    output: &mut Output<'_, K>,
    room: &mut [u8; ROOM],
    parts: &IxdtfParseRecord<'_, Utf8>,
) -> Result<(), RunError> {
    let Some(instant) = parts.instant() else {
        return output.put(b"error no instant\n");
    };
    let field = add_array(room, 0, b"ok");
    let front = add_instant(room, field, instant);
    let end = add_byte(room, front, b'\n');
    output.put(&room[..end])
}

/// Writes the answer for a refused text, and a newline.
///
/// The text of each error that a reader returns is short. So the answer is made in an array, and one call of `Output::put` appends it
/// to the output.
#[inline(never)]
pub fn put_error<K: Sink>(
    output: &mut Output<'_, K>,
    room: &mut [u8; ROOM],
    error: ParseError,
) -> Result<(), RunError> {
    let first = add_array(room, 0, b"error ");
    let (text, location) = error_parts(error);
    let second = add_bytes(room, first, text.as_bytes());
    let newline = add_bytes(room, second, location.as_bytes());
    let end = add_byte(room, newline, b'\n');
    output.put(&room[..end])
}
