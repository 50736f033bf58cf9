// Made by tools/to_rust.py of crates/ixdtf_c/src/value_texts.rt. Do not edit.

//! The functions that print each kind of value, for 8-bit and for 16-bit text. The functions of the modules `narrow_printers` and
//! `wide_printers` call them.

use crate::duration_conversion::duration_of;
use crate::duration_struct::Duration;
use crate::part_conversion::{time_zone_of, utc_offset_of};
use crate::part_structs::Offset;
use crate::printer_trait::Printers;
use crate::record_conversion::record_of;
use crate::struct_traits::{RecordOf, ZoneOf};
use ixdtf::encoding::EncodingType;
use ixdtf_print::{PrintError, duration_length, offset_length};

/// A value from C that the library can print in the encoding `T`. It is a duration, an offset, a zone or a record. A record can
/// be printed as four kinds of text. For each of these kinds there is a struct that contains the record, such as [`AsTime`].
pub trait HasText<T: EncodingType> {
    /// Prints the value, and returns the length of the text in code units.
    fn print(&self, out: &mut [T::CodeUnit]) -> Result<usize, PrintError>;

    /// Returns the length of the canonical text in code units.
    ///
    /// Returns `None` if the value cannot be printed, or if the length is greater than `usize::MAX`.
    fn needs(&self) -> Option<usize>;
}

/// A record that is printed as a date, or as a date and a time. Its offset, its zone and its calendar are printed too, if they
/// are present. `ixdtf_parse` and `ixdtf16_parse` read such texts.
#[derive(Clone, Copy)]
pub struct AsDateTime<'a, R> {
    pub record: &'a R,
}

/// A record that is printed as a time. Its offset, its zone and its calendar are printed too, if they are present.
/// `ixdtf_parse_time` and `ixdtf16_parse_time` read such texts.
#[derive(Clone, Copy)]
pub struct AsTime<'a, R> {
    pub record: &'a R,
}

/// A record that is printed as a year and a month. Its zone and its calendar are printed too, if they are present.
/// `ixdtf_parse_year_month` and `ixdtf16_parse_year_month` read such texts.
#[derive(Clone, Copy)]
pub struct AsYearMonth<'a, R> {
    pub record: &'a R,
}

/// A record that is printed as a month and a day. Its zone and its calendar are printed too, if they are present.
/// `ixdtf_parse_month_day` and `ixdtf16_parse_month_day` read such texts.
#[derive(Clone, Copy)]
pub struct AsMonthDay<'a, R> {
    pub record: &'a R,
}

/// A zone that is printed without its brackets and without its `!`. `ixdtf_parse_identifier` and `ixdtf16_parse_identifier`
/// read such texts.
#[derive(Clone, Copy)]
pub struct AsZone<'a, Z> {
    pub zone: &'a Z,
}

impl<'a, T: Printers> HasText<T> for Duration<'a> {
    #[inline(always)]
    fn print(&self, out: &mut [T::CodeUnit]) -> Result<usize, PrintError> {
        match duration_of(self) {
            None => Err(PrintError::NotPrintable),
            Some(found) => T::print_duration(&found, out),
        }
    }

    #[inline(always)]
    fn needs(&self) -> Option<usize> {
        match duration_of(self) {
            None => None,
            Some(found) => duration_length(&found),
        }
    }
}

impl<T: Printers> HasText<T> for Offset {
    #[inline(always)]
    fn print(&self, out: &mut [T::CodeUnit]) -> Result<usize, PrintError> {
        match utc_offset_of(self) {
            None => Err(PrintError::NotPrintable),
            Some(found) => T::print_offset(&found, out),
        }
    }

    #[inline(always)]
    fn needs(&self) -> Option<usize> {
        match utc_offset_of(self) {
            None => None,
            Some(found) => offset_length(&found),
        }
    }
}

impl<'a, T: Printers, Z: ZoneOf<'a, T>> HasText<T> for AsZone<'a, Z>
where
    T::CodeUnit: 'a,
{
    #[inline(always)]
    fn print(&self, out: &mut [T::CodeUnit]) -> Result<usize, PrintError> {
        match time_zone_of(self.zone) {
            None => Err(PrintError::NotPrintable),
            Some(found) => T::print_zone(&found, out),
        }
    }

    #[inline(always)]
    fn needs(&self) -> Option<usize> {
        match time_zone_of(self.zone) {
            None => None,
            Some(found) => T::zone_length(&found),
        }
    }
}

impl<'a, T: Printers, R: RecordOf<'a, T>> HasText<T> for AsDateTime<'a, R>
where
    T::CodeUnit: 'a,
{
    #[inline(always)]
    fn print(&self, out: &mut [T::CodeUnit]) -> Result<usize, PrintError> {
        match record_of(self.record) {
            None => Err(PrintError::NotPrintable),
            Some(found) => T::print_date_time(&found, out),
        }
    }

    #[inline(always)]
    fn needs(&self) -> Option<usize> {
        match record_of(self.record) {
            None => None,
            Some(found) => T::date_time_length(&found),
        }
    }
}

impl<'a, T: Printers, R: RecordOf<'a, T>> HasText<T> for AsTime<'a, R>
where
    T::CodeUnit: 'a,
{
    #[inline(always)]
    fn print(&self, out: &mut [T::CodeUnit]) -> Result<usize, PrintError> {
        match record_of(self.record) {
            None => Err(PrintError::NotPrintable),
            Some(found) => T::print_time(&found, out),
        }
    }

    #[inline(always)]
    fn needs(&self) -> Option<usize> {
        match record_of(self.record) {
            None => None,
            Some(found) => T::time_length(&found),
        }
    }
}

impl<'a, T: Printers, R: RecordOf<'a, T>> HasText<T> for AsYearMonth<'a, R>
where
    T::CodeUnit: 'a,
{
    #[inline(always)]
    fn print(&self, out: &mut [T::CodeUnit]) -> Result<usize, PrintError> {
        match record_of(self.record) {
            None => Err(PrintError::NotPrintable),
            Some(found) => T::print_year_month(&found, out),
        }
    }

    #[inline(always)]
    fn needs(&self) -> Option<usize> {
        match record_of(self.record) {
            None => None,
            Some(found) => T::year_month_length(&found),
        }
    }
}

impl<'a, T: Printers, R: RecordOf<'a, T>> HasText<T> for AsMonthDay<'a, R>
where
    T::CodeUnit: 'a,
{
    #[inline(always)]
    fn print(&self, out: &mut [T::CodeUnit]) -> Result<usize, PrintError> {
        match record_of(self.record) {
            None => Err(PrintError::NotPrintable),
            Some(found) => T::print_month_day(&found, out),
        }
    }

    #[inline(always)]
    fn needs(&self) -> Option<usize> {
        match record_of(self.record) {
            None => None,
            Some(found) => T::month_day_length(&found),
        }
    }
}

/// Prints a value to the first code units of `out`, and writes the length of the text to `count`. Returns 0.
///
/// Returns 101 if the value cannot be printed. Returns 102 if `out` is too short. Then `count` is the length of the text, or
/// `usize::MAX` if the length is greater.
#[inline(always)]
pub fn print_into<T: EncodingType, P: HasText<T>>(
    found: &P,
    out: &mut [T::CodeUnit],
    count: &mut usize,
) -> u32 {
    match found.print(out) {
        Ok(written) => {
            *count = written;
            0
        }
        Err(PrintError::NotPrintable) => 101,
        Err(PrintError::TooShort) => {
            *count = found.needs().unwrap_or(usize::MAX);
            102
        }
    }
}

/// Returns the length of the canonical text in code units.
///
/// Returns 0 if the value cannot be printed, or if the length is greater than `usize::MAX`.
#[inline(always)]
pub fn length_into<T: EncodingType, P: HasText<T>>(found: &P) -> usize {
    found.needs().unwrap_or(0)
}
