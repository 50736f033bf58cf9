// Made by tools/to_rust.py of crates/ixdtf_c/src/record_instants.rt. Do not edit.

//! Functions for C that return the instant of a record.

use crate::narrow::Record;
use crate::part_structs::{Date, Offset, Time};
use crate::record_conversion::{date_of, offset_of, time_of};
use crate::wide;
use ixdtf::Instant;
use ixdtf::encoding::Utf8;
use ixdtf::records::IxdtfParseRecord;

/// Returns the instant of a date, a time and an offset, or `None` if they have no instant.
fn instant_of(date: &Date, time: &Time, offset: &Offset) -> Option<Instant> {
    let Some(time) = time_of(time) else {
        return None;
    };
    let Some(offset) = offset_of(offset) else {
        return None;
    };
    let record: IxdtfParseRecord<'_, Utf8> = IxdtfParseRecord {
        date: date_of(date),
        time,
        offset,
        tz: None,
        calendar: None,
    };
    record.instant()
}

/// Writes the instant of a date, a time and an offset, and returns 0. Returns 103 if they have no instant.
fn put_instant(
    date: &Date,
    time: &Time,
    offset: &Offset,
    seconds: &mut i64,
    nanoseconds: &mut u32,
) -> u32 {
    match instant_of(date, time, offset) {
        None => 103,
        Some(instant) => {
            *seconds = instant.seconds;
            *nanoseconds = instant.nanoseconds;
            0
        }
    }
}

/// Writes the instant of a record, and returns 0. Returns 103, and writes nothing, if the record has no instant.
///
/// The instant is the number of seconds since 1970-01-01T00:00:00Z, rounded down, and the nanoseconds after these seconds.
#[unsafe(no_mangle)]
pub extern "C" fn ixdtf_instant(given: &Record<'_>, seconds: &mut i64, nanoseconds: &mut u32) -> u32 {
    put_instant(
        &given.date,
        &given.time,
        &given.offset,
        seconds,
        nanoseconds,
    )
}

/// Writes the instant of a record, and returns 0. Returns 103, and writes nothing, if the record has no instant.
///
/// The instant is the number of seconds since 1970-01-01T00:00:00Z, rounded down, and the nanoseconds after these seconds.
#[unsafe(no_mangle)]
pub extern "C" fn ixdtf16_instant(
    given: &wide::Record<'_>,
    seconds: &mut i64,
    nanoseconds: &mut u32,
) -> u32 {
    put_instant(
        &given.date,
        &given.time,
        &given.offset,
        seconds,
        nanoseconds,
    )
}
