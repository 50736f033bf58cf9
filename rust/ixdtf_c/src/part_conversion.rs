// Made by tools/to_rust.py of crates/ixdtf_c/src/part_conversion.rt. Do not edit.

//! The conversion of an offset alone, or of a time zone alone, from the struct of C into the record that the library prints.

use crate::part_structs::Offset;
use crate::record_conversion::offset_of;
use crate::struct_traits::ZoneOf;
use ixdtf::encoding::EncodingType;
use ixdtf::records::{TimeZoneRecord, UtcOffsetRecord, UtcOffsetRecordOrZ};

/// Returns the offset. Returns `None` if `form` is neither 2 nor 3, or if the fraction is not valid.
pub fn utc_offset_of(given: &Offset) -> Option<UtcOffsetRecord> {
    let Some(found) = offset_of(given) else {
        return None;
    };
    match found {
        None => None,
        Some(UtcOffsetRecordOrZ::Z) => None,
        Some(UtcOffsetRecordOrZ::Offset(offset)) => Some(offset),
    }
}

/// Returns the time zone. Returns `None` if `form` is neither 1 nor 2.
pub fn time_zone_of<'a, T: EncodingType, Z: ZoneOf<'a, T>>(
    given: &Z,
) -> Option<TimeZoneRecord<'a, T>> {
    let Some(found) = given.read() else {
        return None;
    };
    match found {
        None => None,
        Some(it) => Some(it.tz),
    }
}
