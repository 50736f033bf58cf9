// Made by tools/to_rust.py of crates/ixdtf_c/src/narrow_printers.rt. Do not edit.

//! The functions for C that print canonical texts in 8-bit code units. The functions of `wide_printers` print them in 16-bit code
//! units.

use crate::duration_struct::Duration;
use crate::narrow::{Record, Zone};
use crate::part_structs::Offset;
use crate::value_texts::{
    AsDateTime, AsMonthDay, AsTime, AsYearMonth, AsZone, length_into, print_into,
};
use ixdtf::encoding::Utf8;

/// Prints a date, or a date and a time, with its offset, its zone and its calendar, such as `2024-03-02T08:48:00Z`.
///
/// Writes the text to the first bytes of `out`, and its length to `count`. Returns 0 if the text is written. Returns 101 if
/// there is no text for which `ixdtf_parse` writes this record. Returns 102 if `out` is too short. Then `count` is the length of
/// the text, or `usize::MAX` if the length is greater.
#[unsafe(no_mangle)]
pub unsafe extern "C" fn ixdtf_print(given: &Record<'_>, out: *mut u8, out_length: usize, count: &mut usize) -> u32 {
    // SAFETY: the header requires this of the caller.
    let out = unsafe { crate::slices::slice_mut(out, out_length) };
    print_into::<Utf8, _>(&AsDateTime { record: given }, out, count)
}

/// Prints a duration, such as `P1Y2DT3H`.
///
/// Writes the text to the first bytes of `out`, and its length to `count`. Returns 0 if the text is written. Returns 101 if
/// there is no text for which `ixdtf_parse_duration` writes this duration. Returns 102 if `out` is too short. Then `count` is
/// the length of the text.
#[unsafe(no_mangle)]
pub unsafe extern "C" fn ixdtf_print_duration(
    given: &Duration<'_>,
    out: *mut u8,
    out_length: usize,
    count: &mut usize,
) -> u32 {
    // SAFETY: the header requires this of the caller.
    let out = unsafe { crate::slices::slice_mut(out, out_length) };
    print_into::<Utf8, _>(given, out, count)
}

/// Returns the length, in bytes, of the canonical text of a duration.
///
/// Returns 0 if the duration cannot be printed.
#[unsafe(no_mangle)]
pub extern "C" fn ixdtf_printed_duration_length(given: &Duration<'_>) -> usize {
    length_into::<Utf8, _>(given)
}

/// Prints an offset, such as `-05:00`.
///
/// Writes the text to the first bytes of `out`, and its length to `count`. Returns 0 if the text is written. Returns 101 if
/// there is no text for which `ixdtf_parse_offset` writes this offset. Returns 102 if `out` is too short. Then `count` is the
/// length of the text.
#[unsafe(no_mangle)]
pub unsafe extern "C" fn ixdtf_print_offset(given: &Offset, out: *mut u8, out_length: usize, count: &mut usize) -> u32 {
    // SAFETY: the header requires this of the caller.
    let out = unsafe { crate::slices::slice_mut(out, out_length) };
    print_into::<Utf8, _>(given, out, count)
}

/// Returns the length, in bytes, of the canonical text of an offset.
///
/// Returns 0 if the offset cannot be printed. No offset has a text that is longer than `usize::MAX`.
#[unsafe(no_mangle)]
pub extern "C" fn ixdtf_printed_offset_length(given: &Offset) -> usize {
    length_into::<Utf8, _>(given)
}

/// Prints a time zone without brackets, such as `Europe/Berlin`.
///
/// Writes the text to the first bytes of `out`, and its length to `count`. Returns 0 if the text is written. Returns 101 if
/// there is no text for which `ixdtf_parse_identifier` writes this name or this offset. Returns 102 if `out` is too short. Then
/// `count` is the length of the text. `is_critical` does not matter.
#[unsafe(no_mangle)]
pub unsafe extern "C" fn ixdtf_print_zone(given: &Zone<'_>, out: *mut u8, out_length: usize, count: &mut usize) -> u32 {
    // SAFETY: the header requires this of the caller.
    let out = unsafe { crate::slices::slice_mut(out, out_length) };
    print_into::<Utf8, _>(&AsZone { zone: given }, out, count)
}

/// Returns the length, in bytes, of the canonical text of a time zone without brackets.
///
/// Returns 0 if the zone cannot be printed. No zone has a text that is longer than `usize::MAX`.
#[unsafe(no_mangle)]
pub extern "C" fn ixdtf_printed_zone_length(given: &Zone<'_>) -> usize {
    length_into::<Utf8, _>(&AsZone { zone: given })
}

/// Prints a time with its offset, its zone and its calendar, such as `08:48:00Z[u-ca=hebrew]`.
///
/// Writes the text to the first bytes of `out`, and its length to `count`. Returns 0 if the text is written. Returns 101 if
/// there is no text for which `ixdtf_parse_time` writes this record. Returns 102 if `out` is too short. Then `count` is the
/// length of the text, or `usize::MAX` if the length is greater.
#[unsafe(no_mangle)]
pub unsafe extern "C" fn ixdtf_print_time(given: &Record<'_>, out: *mut u8, out_length: usize, count: &mut usize) -> u32 {
    // SAFETY: the header requires this of the caller.
    let out = unsafe { crate::slices::slice_mut(out, out_length) };
    print_into::<Utf8, _>(&AsTime { record: given }, out, count)
}

/// Returns the length, in bytes, of the canonical text of a time with its offset, its zone and its calendar.
///
/// Returns 0 if the record cannot be printed, or if the length is greater than `usize::MAX`.
#[unsafe(no_mangle)]
pub extern "C" fn ixdtf_printed_time_length(given: &Record<'_>) -> usize {
    length_into::<Utf8, _>(&AsTime { record: given })
}

/// Prints a year and a month with their zone and their calendar, such as `2024-03[Europe/Berlin]`.
///
/// Writes the text to the first bytes of `out`, and its length to `count`. Returns 0 if the text is written. Returns 101 if
/// there is no text for which `ixdtf_parse_year_month` writes this record. Returns 102 if `out` is too short. Then `count` is
/// the length of the text, or `usize::MAX` if the length is greater.
#[unsafe(no_mangle)]
pub unsafe extern "C" fn ixdtf_print_year_month(
    given: &Record<'_>,
    out: *mut u8,
    out_length: usize,
    count: &mut usize,
) -> u32 {
    // SAFETY: the header requires this of the caller.
    let out = unsafe { crate::slices::slice_mut(out, out_length) };
    print_into::<Utf8, _>(&AsYearMonth { record: given }, out, count)
}

/// Returns the length, in bytes, of the canonical text of a year and a month with their zone and their calendar.
///
/// Returns 0 if the record cannot be printed, or if the length is greater than `usize::MAX`.
#[unsafe(no_mangle)]
pub extern "C" fn ixdtf_printed_year_month_length(given: &Record<'_>) -> usize {
    length_into::<Utf8, _>(&AsYearMonth { record: given })
}

/// Prints a month and a day with their zone and their calendar, such as `03-02[u-ca=iso8601]`.
///
/// Writes the text to the first bytes of `out`, and its length to `count`. Returns 0 if the text is written. Returns 101 if
/// there is no text for which `ixdtf_parse_month_day` writes this record. Returns 102 if `out` is too short. Then `count` is the
/// length of the text, or `usize::MAX` if the length is greater.
#[unsafe(no_mangle)]
pub unsafe extern "C" fn ixdtf_print_month_day(
    given: &Record<'_>,
    out: *mut u8,
    out_length: usize,
    count: &mut usize,
) -> u32 {
    // SAFETY: the header requires this of the caller.
    let out = unsafe { crate::slices::slice_mut(out, out_length) };
    print_into::<Utf8, _>(&AsMonthDay { record: given }, out, count)
}

/// Returns the length, in bytes, of the canonical text of a month and a day with their zone and their calendar.
///
/// Returns 0 if the record cannot be printed, or if the length is greater than `usize::MAX`.
#[unsafe(no_mangle)]
pub extern "C" fn ixdtf_printed_month_day_length(given: &Record<'_>) -> usize {
    length_into::<Utf8, _>(&AsMonthDay { record: given })
}
