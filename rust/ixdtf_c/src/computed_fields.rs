// Made by tools/to_rust.py of crates/ixdtf_c/src/computed_fields.rt. Do not edit.

//! Functions for C that compute something from the fields of a record.

use crate::narrow::Record;
use crate::part_structs::Offset;
use crate::value_texts::{AsDateTime, length_into};
use ixdtf::encoding::Utf8;
use ixdtf::records::Fraction;

/// Returns the nanoseconds of a fraction of a second, such as 250000000 for `fraction` 25 and `digits` 2.
///
/// Drops all digits after the ninth. Returns 0 if `digits` is 0. Also returns 0 if `fraction` has more digits than `digits`
/// says, or if `fraction` has more than 18 digits.
#[unsafe(no_mangle)]
pub extern "C" fn ixdtf_nanoseconds(fraction: u64, digits: u8) -> u32 {
    match Fraction::of_parts(digits, fraction) {
        None => 0,
        Some(it) => it.to_truncated_nanoseconds(),
    }
}

/// Returns the whole seconds of an offset, without its sign. Returns 0 if `form` is neither 2 nor 3.
fn whole_seconds(offset: &Offset) -> u32 {
    let minutes = u32::from(offset.hour) * 3600 + u32::from(offset.minute) * 60;
    if offset.form == 2 {
        return minutes;
    }
    if offset.form == 3 {
        return minutes + u32::from(offset.second);
    }
    0
}

/// Returns how many seconds local time is ahead of UTC, such as -18000 for `-05:00`.
///
/// Drops a fraction of a second. Returns 0 if `form` is neither 2 nor 3, for example for `Z`.
#[unsafe(no_mangle)]
pub extern "C" fn ixdtf_offset_seconds(offset: &Offset) -> i32 {
    let seconds = whole_seconds(offset) as i32;
    if offset.is_negative {
        -seconds
    } else {
        seconds
    }
}

/// Returns the length, in bytes, of the canonical text that `ixdtf_print` writes.
///
/// Returns 0 if the record cannot be printed, or if the length is greater than `usize::MAX`.
#[unsafe(no_mangle)]
pub extern "C" fn ixdtf_printed_length(given: &Record<'_>) -> usize {
    length_into::<Utf8, _>(&AsDateTime { record: given })
}
