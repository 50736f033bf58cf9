// Made by tools/to_rust.py of crates/ixdtf_c/src/readers.rt. Do not edit.

//! What the functions of `exports` do: read a text with a reader of the library, and write the result into the struct of the
//! caller. The functions are generic, for 8-bit and for 16-bit text. The check of replies is here too.

use crate::error_numbers::number_and_location;
use crate::struct_traits::{AnnotationOf, CalendarOf, RecordOf};
use ixdtf::LocatedError;
use ixdtf::encoding::EncodingType;
use ixdtf::parsers::{CoreReader, FromStop, IxdtfParser, Profile, TimeZoneParser};
use ixdtf::records::{IxdtfParseRecord, TimeZoneAnnotation, TimeZoneRecord, UtcOffsetRecordOrZ};

/// Reads a text with the reader of the kind `C`, without a handler.
///
/// The library is written in Rattle, which is Rust with contracts. Rattle's borrow checker refuses a function that has
/// `'static` in the types of its signature, and that also uses a bound with a lifetime. With `LocatedError` as its error, this
/// function would have both: `LocatedError` contains `'static`, and a handler has such a bound. So the function is generic in
/// the error.
#[inline(always)]
fn read_as<'a, E: FromStop, T: EncodingType, C: CoreReader>(
    text: &'a [T::CodeUnit],
    profile: Profile,
) -> Result<IxdtfParseRecord<'a, T>, E>
where
    T::CodeUnit: 'a,
{
    let mut parser = IxdtfParser::<T>::new(text).with_profile(profile);
    let mut handler = |annotation| Some(annotation);
    parser.read_lending_handler::<E, C, _>(&mut handler)
}

/// Returns a record that has only an offset and a zone, or only one of them.
#[inline(always)]
fn with_parts<'a, T: EncodingType>(
    offset: Option<UtcOffsetRecordOrZ>,
    tz: Option<TimeZoneAnnotation<'a, T>>,
) -> IxdtfParseRecord<'a, T> {
    IxdtfParseRecord {
        date: None,
        time: None,
        offset,
        tz,
        calendar: None,
    }
}

/// Reads a text without a handler. The type parameter `C` says which kind of reader reads the text. Writes the record, or the
/// location and the position of the error. Returns 0 or the number of the error.
#[inline(always)]
pub fn read_into<'a, T: EncodingType, C: CoreReader, R: RecordOf<'a, T>>(
    text: &'a [T::CodeUnit],
    profile: Profile,
    out: &mut R,
) -> u32
where
    T::CodeUnit: 'a,
{
    match read_as::<LocatedError, T, C>(text, profile) {
        Ok(found) => {
            out.write(&found);
            0
        }
        Err(located) => out.refuse(located),
    }
}

/// Reads a date-time of RFC 3339. Writes the record, or the location and the position of the error. Returns 0 or the number of
/// the error.
#[inline(always)]
pub fn rfc3339_into<'a, T: EncodingType, R: RecordOf<'a, T>>(
    text: &'a [T::CodeUnit],
    out: &mut R,
) -> u32 {
    match IxdtfParser::<T>::new(text).parse_rfc3339_located() {
        Ok(found) => {
            out.write(&found);
            0
        }
        Err(located) => out.refuse(located),
    }
}

/// Reads an offset. Writes the record, or the location and the position of the error. Returns 0 or the number of the error.
#[inline(always)]
pub fn offset_into<'a, T: EncodingType, R: RecordOf<'a, T>>(
    text: &'a [T::CodeUnit],
    out: &mut R,
) -> u32 {
    match TimeZoneParser::<T>::new(text).parse_offset_located() {
        Ok(offset) => {
            let offset = UtcOffsetRecordOrZ::Offset(offset);
            out.write(&with_parts::<T>(Some(offset), None));
            0
        }
        Err(located) => out.refuse(located),
    }
}

/// Reads a time zone. Writes the record, or the location and the position of the error. Returns 0 or the number of the error.
#[inline(always)]
pub fn zone_into<'a, T: EncodingType, R: RecordOf<'a, T>>(
    text: &'a [T::CodeUnit],
    out: &mut R,
) -> u32 {
    match TimeZoneParser::<T>::new(text).parse_identifier_located() {
        Ok(zone) => {
            let alone = TimeZoneAnnotation {
                critical: false,
                tz: zone,
            };
            out.write(&with_parts::<T>(None, Some(alone)));
            0
        }
        Err(located) => out.refuse(located),
    }
}

/// Reads the name of a time zone. Writes the record, or the location and the position of the error. Returns 0 or the number of
/// the error.
#[inline(always)]
pub fn name_into<'a, T: EncodingType, R: RecordOf<'a, T>>(
    text: &'a [T::CodeUnit],
    out: &mut R,
) -> u32 {
    match TimeZoneParser::<T>::new(text).parse_iana_identifier_located() {
        Ok(name) => {
            let named = TimeZoneAnnotation {
                critical: false,
                tz: TimeZoneRecord::Name(name),
            };
            out.write(&with_parts::<T>(None, Some(named)));
            0
        }
        Err(located) => out.refuse(located),
    }
}

/// Checks a reply. For a listed annotation, a caller replies with this annotation itself, or with another one.
///
/// Returns 0 if the reply is accepted, and otherwise the number of the error. If the key of an accepted reply is `u-ca`, and no
/// calendar was kept before, the reply is kept in `calendar`.
#[inline(always)]
pub fn take_reply<'a, T: EncodingType, A: AnnotationOf<'a, T>, K: CalendarOf<'a, T>>(
    calendar: &mut K,
    reply: &A,
) -> u32
where
    T::CodeUnit: 'a,
{
    let mut kept = calendar.read();
    let found = reply.read();
    // This parser reads no text. Its method checks the reply, and the parser counts the accesses to code units.
    let mut parser = IxdtfParser::<T>::new(found.key);
    match parser.keep_first_calendar(&mut kept, Some(found)) {
        Ok(()) => {
            calendar.write(kept);
            0
        }
        Err(error) => number_and_location(error).0,
    }
}
