// Made by tools/to_rust.py of crates/ixdtf_print/src/text.rt. Do not edit.

//! Functions for all kinds of canonical texts.

use crate::error::PrintError;
use crate::fields::{put_brackets, put_zone};
use crate::length::{brackets_length, length_of_zone};
use crate::wide::put_wide;
use crate::written::{front_of, write_brackets, write_bytes, write_zone};
use ixdtf::encoding::Utf8;
use ixdtf::records::{IxdtfParseRecord, TimeZoneRecord};
use core::fmt;

/// The greatest number of bytes of a core. The core of a date-time is the longest one. Its date has at most 13 bytes. Its
/// time and its offset have at most 265 bytes each, because a fraction has at most 255 digits.
const MOST_OF_CORE: usize = 543;

/// The end of a canonical text. A canonical text has two parts: the core, whose length is limited, and the tail. The tail
/// can have names, and a name can have any length.
pub enum Tail<'a> {
    /// There is nothing after the core.
    Nothing,
    /// A zone without brackets. It is the whole canonical text, and the core is empty.
    Zone(&'a TimeZoneRecord<'a, Utf8>),
    /// The zone and the calendar of a record, in their brackets.
    Brackets(&'a IxdtfParseRecord<'a, Utf8>),
}

/// A record of one kind, such as a time or a duration, that can be printed.
///
/// An implementation says what the canonical texts of its kind are. The functions of this module write, count and display
/// these texts.
pub trait CanonicalText: Copy {
    /// Returns whether the record has a canonical text.
    fn is_printable(self) -> bool;

    /// Returns the number of bytes of the core.
    fn core_length(self) -> u16;

    /// Writes the core at the beginning of the slice. Returns the index after it.
    fn put_core(self, out: &mut [u8]) -> usize;

    /// Returns what follows the core.
    fn tail(&self) -> Tail<'_>;

    /// Returns whether the canonical text has more than `room` bytes.
    #[inline(always)]
    fn is_too_short(self, room: usize) -> bool {
        (room as u128) < length_of_parts(self.core_length(), self.tail())
    }
}

/// Returns the number of bytes of the canonical text.
#[inline(always)]
pub fn length<T: CanonicalText>(text: T) -> u128 {
    length_of_parts(text.core_length(), text.tail())
}

/// Returns the number of bytes of a core and a tail.
///
/// The default method `is_too_short` of the trait calls this function, and not `length`, because `length` has the bound
/// `CanonicalText`. Rattle makes no proof of a default method that passes `Self` to a function with a bound on the same
/// trait.
#[inline(always)]
pub fn length_of_parts(core_length: u16, tail: Tail<'_>) -> u128 {
    u128::from(core_length) + tail_length(tail)
}

/// Writes the canonical text at the beginning of the slice. Returns the index after it.
#[inline(always)]
fn put<T: CanonicalText>(text: T, out: &mut [u8]) -> usize {
    let rest = text.tail();
    let after_core = text.put_core(out);
    put_tail(out, after_core, rest)
}

/// Writes the canonical text to the beginning of a slice that is long enough. Returns the number of bytes of the text.
#[inline(always)]
pub fn put_in_room<T: CanonicalText>(text: T, room: &mut [u8]) -> usize {
    put(text, room)
}

/// Writes the canonical text to the beginning of the slice. Returns the number of bytes of the text. Returns an error
/// if there is no canonical text, or if the slice is shorter than the text.
#[inline(always)]
pub fn print<T: CanonicalText>(text: T, out: &mut [u8]) -> Result<usize, PrintError> {
    if !text.is_printable() {
        return Err(PrintError::NotPrintable);
    }
    if text.is_too_short(out.len()) {
        return Err(PrintError::TooShort);
    }
    Ok(put(text, out))
}

/// Writes the canonical text as 16-bit code units, like `print`. The text must have no tail.
pub fn print_utf16<T: CanonicalText>(text: T, out: &mut [u16]) -> Result<usize, PrintError> {
    if !text.is_printable() {
        Err(PrintError::NotPrintable)
    } else if text.is_too_short(out.len()) {
        Err(PrintError::TooShort)
    } else {
        Ok(put_core_utf16(text, out))
    }
}

/// Writes the core as 16-bit code units at the beginning of the slice. Returns the index after it.
pub fn put_core_utf16<T: CanonicalText>(text: T, out: &mut [u16]) -> usize {
    let count = usize::from(text.core_length());
    let mut bytes = [0; MOST_OF_CORE];
    text.put_core(&mut bytes);
    put_wide(out, 0, front_of(&bytes, count))
}

/// Returns the length of the canonical text, if there is one and a `usize` can hold its length.
pub fn printed_length<T: CanonicalText>(text: T) -> Option<usize> {
    if text.is_printable() {
        usize::try_from(length(text)).ok()
    } else {
        None
    }
}

/// Returns the record unchanged if it has a canonical text, and `None` otherwise.
pub fn checked<T: CanonicalText>(text: T) -> Option<T> {
    if !text.is_printable() {
        return None;
    }
    Some(text)
}

/// Writes the canonical text into a formatter.
pub fn write<T: CanonicalText>(text: T, f: &mut fmt::Formatter<'_>) -> fmt::Result {
    write_core(text, f)?;
    write_tail(f, text.tail())
}

/// Writes the core into a formatter.
fn write_core<T: CanonicalText>(text: T, f: &mut fmt::Formatter<'_>) -> fmt::Result {
    let count = usize::from(text.core_length());
    let mut bytes = [0; MOST_OF_CORE];
    text.put_core(&mut bytes);
    write_bytes(f, front_of(&bytes, count))
}

/// Returns the number of bytes of the tail.
#[inline(always)]
fn tail_length(tail: Tail<'_>) -> u128 {
    match tail {
        Tail::Nothing => 0,
        Tail::Zone(zone) => length_of_zone(zone),
        Tail::Brackets(parsed) => brackets_length(parsed),
    }
}

/// Writes the tail at index `at`. Returns the index after it.
#[inline(always)]
fn put_tail(out: &mut [u8], at: usize, tail: Tail<'_>) -> usize {
    match tail {
        Tail::Nothing => at,
        Tail::Zone(zone) => put_zone(out, at, zone),
        Tail::Brackets(parsed) => put_brackets(out, at, parsed),
    }
}

/// Writes the tail into a formatter.
fn write_tail(f: &mut fmt::Formatter<'_>, tail: Tail<'_>) -> fmt::Result {
    match tail {
        Tail::Nothing => Ok(()),
        Tail::Zone(zone) => write_zone(f, zone),
        Tail::Brackets(parsed) => write_brackets(f, parsed),
    }
}
