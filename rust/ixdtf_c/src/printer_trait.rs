// Made by tools/to_rust.py of crates/ixdtf_c/src/printer_trait.rt. Do not edit.

//! The printers of the library, for 8-bit and for 16-bit text. Code that is generic in the encoding calls them.

use ixdtf::encoding::{EncodingType, Utf8, Utf16};
use ixdtf::records::{DurationParseRecord, IxdtfParseRecord, TimeZoneRecord, UtcOffsetRecord};
use ixdtf_print::{
    PrintError, month_day_length, month_day_length_utf16, print, print_duration,
    print_duration_utf16, print_month_day, print_month_day_utf16, print_offset, print_offset_utf16,
    print_time, print_time_utf16, print_utf16, print_year_month, print_year_month_utf16,
    print_zone, print_zone_utf16, printed_length, printed_length_utf16, time_length,
    time_length_utf16, year_month_length, year_month_length_utf16, zone_length, zone_length_utf16,
};

/// An encoding, with the printers that write texts in this encoding. It is `Utf8` or `Utf16`. The names of zones and the
/// calendars in the records have code units of this encoding.
///
/// Each function that prints returns the number of code units. Each function for a length returns `None` if the record cannot
/// be printed, or if the length is greater than `usize::MAX`.
pub trait Printers: EncodingType + Sized {
    /// Prints a date, or a date and a time, with its zone and its calendar in brackets.
    fn print_date_time(
        found: &IxdtfParseRecord<'_, Self>,
        out: &mut [Self::CodeUnit],
    ) -> Result<usize, PrintError>;

    /// Returns the length of the text that `print_date_time` writes.
    fn date_time_length(found: &IxdtfParseRecord<'_, Self>) -> Option<usize>;

    /// Prints a time, with its zone and its calendar in brackets.
    fn print_time(
        found: &IxdtfParseRecord<'_, Self>,
        out: &mut [Self::CodeUnit],
    ) -> Result<usize, PrintError>;

    /// Returns the length of the text that `print_time` writes.
    fn time_length(found: &IxdtfParseRecord<'_, Self>) -> Option<usize>;

    /// Prints a year and a month, with their zone and their calendar in brackets.
    fn print_year_month(
        found: &IxdtfParseRecord<'_, Self>,
        out: &mut [Self::CodeUnit],
    ) -> Result<usize, PrintError>;

    /// Returns the length of the text that `print_year_month` writes.
    fn year_month_length(found: &IxdtfParseRecord<'_, Self>) -> Option<usize>;

    /// Prints a month and a day, with their zone and their calendar in brackets.
    fn print_month_day(
        found: &IxdtfParseRecord<'_, Self>,
        out: &mut [Self::CodeUnit],
    ) -> Result<usize, PrintError>;

    /// Returns the length of the text that `print_month_day` writes.
    fn month_day_length(found: &IxdtfParseRecord<'_, Self>) -> Option<usize>;

    /// Prints a zone, without brackets.
    fn print_zone(
        found: &TimeZoneRecord<'_, Self>,
        out: &mut [Self::CodeUnit],
    ) -> Result<usize, PrintError>;

    /// Returns the length of the text that `print_zone` writes.
    fn zone_length(found: &TimeZoneRecord<'_, Self>) -> Option<usize>;

    /// Prints a duration.
    fn print_duration(
        found: &DurationParseRecord,
        out: &mut [Self::CodeUnit],
    ) -> Result<usize, PrintError>;

    /// Prints an offset.
    fn print_offset(
        found: &UtcOffsetRecord,
        out: &mut [Self::CodeUnit],
    ) -> Result<usize, PrintError>;
}

impl Printers for Utf8 {
    #[inline(always)]
    fn print_date_time(
        found: &IxdtfParseRecord<'_, Utf8>,
        out: &mut [u8],
    ) -> Result<usize, PrintError> {
        print(found, out)
    }

    #[inline(always)]
    fn date_time_length(found: &IxdtfParseRecord<'_, Utf8>) -> Option<usize> {
        printed_length(found)
    }

    #[inline(always)]
    fn print_time(found: &IxdtfParseRecord<'_, Utf8>, out: &mut [u8]) -> Result<usize, PrintError> {
        print_time(found, out)
    }

    #[inline(always)]
    fn time_length(found: &IxdtfParseRecord<'_, Utf8>) -> Option<usize> {
        time_length(found)
    }

    #[inline(always)]
    fn print_year_month(
        found: &IxdtfParseRecord<'_, Utf8>,
        out: &mut [u8],
    ) -> Result<usize, PrintError> {
        print_year_month(found, out)
    }

    #[inline(always)]
    fn year_month_length(found: &IxdtfParseRecord<'_, Utf8>) -> Option<usize> {
        year_month_length(found)
    }

    #[inline(always)]
    fn print_month_day(
        found: &IxdtfParseRecord<'_, Utf8>,
        out: &mut [u8],
    ) -> Result<usize, PrintError> {
        print_month_day(found, out)
    }

    #[inline(always)]
    fn month_day_length(found: &IxdtfParseRecord<'_, Utf8>) -> Option<usize> {
        month_day_length(found)
    }

    #[inline(always)]
    fn print_zone(found: &TimeZoneRecord<'_, Utf8>, out: &mut [u8]) -> Result<usize, PrintError> {
        print_zone(found, out)
    }

    #[inline(always)]
    fn zone_length(found: &TimeZoneRecord<'_, Utf8>) -> Option<usize> {
        zone_length(found)
    }

    #[inline(always)]
    fn print_duration(found: &DurationParseRecord, out: &mut [u8]) -> Result<usize, PrintError> {
        print_duration(found, out)
    }

    #[inline(always)]
    fn print_offset(found: &UtcOffsetRecord, out: &mut [u8]) -> Result<usize, PrintError> {
        print_offset(found, out)
    }
}

impl Printers for Utf16 {
    #[inline(always)]
    fn print_date_time(
        found: &IxdtfParseRecord<'_, Utf16>,
        out: &mut [u16],
    ) -> Result<usize, PrintError> {
        print_utf16(found, out)
    }

    #[inline(always)]
    fn date_time_length(found: &IxdtfParseRecord<'_, Utf16>) -> Option<usize> {
        printed_length_utf16(found)
    }

    #[inline(always)]
    fn print_time(
        found: &IxdtfParseRecord<'_, Utf16>,
        out: &mut [u16],
    ) -> Result<usize, PrintError> {
        print_time_utf16(found, out)
    }

    #[inline(always)]
    fn time_length(found: &IxdtfParseRecord<'_, Utf16>) -> Option<usize> {
        time_length_utf16(found)
    }

    #[inline(always)]
    fn print_year_month(
        found: &IxdtfParseRecord<'_, Utf16>,
        out: &mut [u16],
    ) -> Result<usize, PrintError> {
        print_year_month_utf16(found, out)
    }

    #[inline(always)]
    fn year_month_length(found: &IxdtfParseRecord<'_, Utf16>) -> Option<usize> {
        year_month_length_utf16(found)
    }

    #[inline(always)]
    fn print_month_day(
        found: &IxdtfParseRecord<'_, Utf16>,
        out: &mut [u16],
    ) -> Result<usize, PrintError> {
        print_month_day_utf16(found, out)
    }

    #[inline(always)]
    fn month_day_length(found: &IxdtfParseRecord<'_, Utf16>) -> Option<usize> {
        month_day_length_utf16(found)
    }

    #[inline(always)]
    fn print_zone(found: &TimeZoneRecord<'_, Utf16>, out: &mut [u16]) -> Result<usize, PrintError> {
        print_zone_utf16(found, out)
    }

    #[inline(always)]
    fn zone_length(found: &TimeZoneRecord<'_, Utf16>) -> Option<usize> {
        zone_length_utf16(found)
    }

    #[inline(always)]
    fn print_duration(found: &DurationParseRecord, out: &mut [u16]) -> Result<usize, PrintError> {
        print_duration_utf16(found, out)
    }

    #[inline(always)]
    fn print_offset(found: &UtcOffsetRecord, out: &mut [u16]) -> Result<usize, PrintError> {
        print_offset_utf16(found, out)
    }
}
