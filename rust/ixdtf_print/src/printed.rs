// Made by tools/to_rust.py of crates/ixdtf_print/src/printed.rt. Do not edit.

//! An array for the canonical text that a program printed last.

use crate::canonical::print_with_room;
use crate::durations::print_duration;
use crate::month_days::print_month_day;
use crate::offsets::print_offset;
use crate::times::print_time;
use crate::year_months::print_year_month;
use crate::zones::print_zone;
use ixdtf::encoding::Utf8;
use ixdtf::records::{DurationParseRecord, IxdtfParseRecord, TimeZoneRecord, UtcOffsetRecord};

/// A canonical text and a newline after it, in an array of `SIZE` bytes.
///
/// A program uses one such array for all its lines, because to clear an array for each line would take longer than to
/// write the line.
pub struct PrintedText<const SIZE: usize> {
    bytes: [u8; SIZE],
    count: usize,
}

impl<const SIZE: usize> PrintedText<SIZE> {
    /// Creates an empty text, with a newline after it.
    pub fn empty() -> PrintedText<SIZE> {
        let mut bytes = [0; SIZE];
        bytes[0] = b'\n';
        PrintedText { bytes, count: 0 }
    }

    /// Prints the record. Its text replaces the previous text.
    pub fn print(&mut self, parts: &IxdtfParseRecord<'_, Utf8>) {
        let count = print_with_room(parts, &mut self.bytes);
        self.bytes[count] = b'\n';
        self.count = count;
    }

    /// Prints a duration that a reader returned. Its text replaces the previous text.
    pub fn print_duration(&mut self, duration: &DurationParseRecord) {
        if let Ok(count) = print_duration(duration, &mut self.bytes) {
            self.bytes[count] = b'\n';
            self.count = count;
        }
    }

    /// Prints an offset that a reader returned. Its text replaces the previous text.
    pub fn print_offset(&mut self, offset: &UtcOffsetRecord) {
        if let Ok(count) = print_offset(offset, &mut self.bytes) {
            self.bytes[count] = b'\n';
            self.count = count;
        }
    }

    /// Prints a zone that a reader returned. Its text replaces the previous text.
    pub fn print_zone(&mut self, zone: &TimeZoneRecord<'_, Utf8>) {
        if let Ok(count) = print_zone(zone, &mut self.bytes) {
            self.bytes[count] = b'\n';
            self.count = count;
        }
    }

    /// Prints a time that a reader returned. Its text replaces the previous text.
    pub fn print_time(&mut self, parts: &IxdtfParseRecord<'_, Utf8>) {
        if let Ok(count) = print_time(parts, &mut self.bytes) {
            self.bytes[count] = b'\n';
            self.count = count;
        }
    }

    /// Prints a record of a year and a month that a reader returned. Its text replaces the previous text.
    pub fn print_year_month(&mut self, parts: &IxdtfParseRecord<'_, Utf8>) {
        if let Ok(count) = print_year_month(parts, &mut self.bytes) {
            self.bytes[count] = b'\n';
            self.count = count;
        }
    }

    /// Prints a record of a month and a day that a reader returned. Its text replaces the previous text.
    pub fn print_month_day(&mut self, parts: &IxdtfParseRecord<'_, Utf8>) {
        if let Ok(count) = print_month_day(parts, &mut self.bytes) {
            self.bytes[count] = b'\n';
            self.count = count;
        }
    }

    /// Returns the bytes of the text and the newline after it.
    pub fn as_line(&self) -> &[u8] {
        &self.bytes[..self.count + 1]
    }
}
