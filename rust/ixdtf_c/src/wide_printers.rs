// Made by tools/to_rust.py of crates/ixdtf_c/src/wide_printers.rt. Do not edit.

//! The functions for C that print canonical texts in 16-bit code units.

use crate::duration_struct::Duration;
use crate::part_structs::Offset;
use crate::value_texts::{
    AsDateTime, AsMonthDay, AsTime, AsYearMonth, AsZone, length_into, print_into,
};
use crate::wide::{Record, Zone};
use ixdtf::encoding::Utf16;

/// Prints a date, or a date and a time, with its offset, its zone and its calendar, in 16-bit code units. An example is
/// `2024-03-02T08:48:00Z`.
///
/// Writes the text to the first code units of `out`, and its length to `count`. Returns 0 if the text is written. Returns 101
/// if there is no text for which `ixdtf16_parse` writes this record. Returns 102 if `out` is too short. Then `count` is the
/// length of the text, or `usize::MAX` if the length is greater.
#[unsafe(no_mangle)]
pub unsafe extern "C" fn ixdtf16_print(given: &Record<'_>, out: *mut u16, out_length: usize, count: &mut usize) -> u32 {
    // SAFETY: the header requires this of the caller.
    let out = unsafe { crate::slices::slice_mut(out, out_length) };
    print_into::<Utf16, _>(&AsDateTime { record: given }, out, count)
}

/// Returns the length, in code units, of the canonical text that `ixdtf16_print` writes.
///
/// Returns 0 if the record cannot be printed, or if the length is greater than `usize::MAX`.
#[unsafe(no_mangle)]
pub extern "C" fn ixdtf16_printed_length(given: &Record<'_>) -> usize {
    length_into::<Utf16, _>(&AsDateTime { record: given })
}

/// Prints a time with its offset, its zone and its calendar, in 16-bit code units, such as `08:48:00Z[u-ca=hebrew]`.
///
/// Writes the text to the first code units of `out`, and its length to `count`. Returns 0 if the text is written. Returns 101
/// if there is no text for which `ixdtf16_parse_time` writes this record. Returns 102 if `out` is too short. Then `count` is
/// the length of the text, or `usize::MAX` if the length is greater.
#[unsafe(no_mangle)]
pub unsafe extern "C" fn ixdtf16_print_time(given: &Record<'_>, out: *mut u16, out_length: usize, count: &mut usize) -> u32 {
    // SAFETY: the header requires this of the caller.
    let out = unsafe { crate::slices::slice_mut(out, out_length) };
    print_into::<Utf16, _>(&AsTime { record: given }, out, count)
}

/// Returns the length, in code units, of the canonical text that `ixdtf16_print_time` writes.
///
/// Returns 0 if the record cannot be printed, or if the length is greater than `usize::MAX`.
#[unsafe(no_mangle)]
pub extern "C" fn ixdtf16_printed_time_length(given: &Record<'_>) -> usize {
    length_into::<Utf16, _>(&AsTime { record: given })
}

/// Prints a year and a month with their zone and their calendar, in 16-bit code units, such as `2024-03[Europe/Berlin]`.
///
/// Writes the text to the first code units of `out`, and its length to `count`. Returns 0 if the text is written. Returns 101
/// if there is no text for which `ixdtf16_parse_year_month` writes this record. Returns 102 if `out` is too short. Then `count`
/// is the length of the text, or `usize::MAX` if the length is greater.
#[unsafe(no_mangle)]
pub unsafe extern "C" fn ixdtf16_print_year_month(
    given: &Record<'_>,
    out: *mut u16,
    out_length: usize,
    count: &mut usize,
) -> u32 {
    // SAFETY: the header requires this of the caller.
    let out = unsafe { crate::slices::slice_mut(out, out_length) };
    print_into::<Utf16, _>(&AsYearMonth { record: given }, out, count)
}

/// Returns the length, in code units, of the canonical text that `ixdtf16_print_year_month` writes.
///
/// Returns 0 if the record cannot be printed, or if the length is greater than `usize::MAX`.
#[unsafe(no_mangle)]
pub extern "C" fn ixdtf16_printed_year_month_length(given: &Record<'_>) -> usize {
    length_into::<Utf16, _>(&AsYearMonth { record: given })
}

/// Prints a month and a day with their zone and their calendar, in 16-bit code units, such as `03-02[u-ca=iso8601]`.
///
/// Writes the text to the first code units of `out`, and its length to `count`. Returns 0 if the text is written. Returns 101
/// if there is no text for which `ixdtf16_parse_month_day` writes this record. Returns 102 if `out` is too short. Then `count`
/// is the length of the text, or `usize::MAX` if the length is greater.
#[unsafe(no_mangle)]
pub unsafe extern "C" fn ixdtf16_print_month_day(
    given: &Record<'_>,
    out: *mut u16,
    out_length: usize,
    count: &mut usize,
) -> u32 {
    // SAFETY: the header requires this of the caller.
    let out = unsafe { crate::slices::slice_mut(out, out_length) };
    print_into::<Utf16, _>(&AsMonthDay { record: given }, out, count)
}

/// Returns the length, in code units, of the canonical text that `ixdtf16_print_month_day` writes.
///
/// Returns 0 if the record cannot be printed, or if the length is greater than `usize::MAX`.
#[unsafe(no_mangle)]
pub extern "C" fn ixdtf16_printed_month_day_length(given: &Record<'_>) -> usize {
    length_into::<Utf16, _>(&AsMonthDay { record: given })
}

/// Prints a time zone without brackets in 16-bit code units, such as `Europe/Berlin`.
///
/// Writes the text to the first code units of `out`, and its length to `count`. Returns 0 if the text is written. Returns 101
/// if there is no text for which `ixdtf16_parse_identifier` writes this name or this offset. Returns 102 if `out` is too short.
/// Then `count` is the length of the text. `is_critical` does not matter.
#[unsafe(no_mangle)]
pub unsafe extern "C" fn ixdtf16_print_zone(given: &Zone<'_>, out: *mut u16, out_length: usize, count: &mut usize) -> u32 {
    // SAFETY: the header requires this of the caller.
    let out = unsafe { crate::slices::slice_mut(out, out_length) };
    print_into::<Utf16, _>(&AsZone { zone: given }, out, count)
}

/// Returns the length, in code units, of the canonical text that `ixdtf16_print_zone` writes.
///
/// Returns 0 if the zone cannot be printed. No zone has a text that is longer than `usize::MAX`.
#[unsafe(no_mangle)]
pub extern "C" fn ixdtf16_printed_zone_length(given: &Zone<'_>) -> usize {
    length_into::<Utf16, _>(&AsZone { zone: given })
}

/// Prints a duration in 16-bit code units, such as `P1Y2DT3H`.
///
/// Writes the text to the first code units of `out`, and its length to `count`. Returns 0 if the text is written. Returns 101
/// if there is no text for which `ixdtf16_parse_duration` writes this duration. Returns 102 if `out` is too short. Then `count`
/// is the length of the text.
#[unsafe(no_mangle)]
pub unsafe extern "C" fn ixdtf16_print_duration(
    given: &Duration<'_>,
    out: *mut u16,
    out_length: usize,
    count: &mut usize,
) -> u32 {
    // SAFETY: the header requires this of the caller.
    let out = unsafe { crate::slices::slice_mut(out, out_length) };
    print_into::<Utf16, _>(given, out, count)
}

/// Prints an offset in 16-bit code units, such as `-05:00`.
///
/// Writes the text to the first code units of `out`, and its length to `count`. Returns 0 if the text is written. Returns 101
/// if there is no text for which `ixdtf16_parse_offset` writes this offset. Returns 102 if `out` is too short. Then `count` is
/// the length of the text.
#[unsafe(no_mangle)]
pub unsafe extern "C" fn ixdtf16_print_offset(given: &Offset, out: *mut u16, out_length: usize, count: &mut usize) -> u32 {
    // SAFETY: the header requires this of the caller.
    let out = unsafe { crate::slices::slice_mut(out, out_length) };
    print_into::<Utf16, _>(given, out, count)
}
