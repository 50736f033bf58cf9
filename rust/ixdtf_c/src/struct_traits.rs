// Made by tools/to_rust.py of crates/ixdtf_c/src/struct_traits.rt. Do not edit.

//! Traits of the structs for 8-bit and for 16-bit text. Code that is generic in the encoding uses them.

use crate::part_structs::{Date, Offset, Time, is_negative};
use ixdtf::LocatedError;
use ixdtf::encoding::EncodingType;
use ixdtf::records::{self, IxdtfParseRecord, TimeZoneAnnotation, TimeZoneRecord};

/// A time zone whose name has code units of the encoding `T`.
pub trait ZoneOf<'a, T: EncodingType> {
    /// Writes every field of the zone.
    fn put(
        &mut self,
        name: &'a [T::CodeUnit],
        form: u8,
        is_critical: bool,
        is_negative: bool,
        hour: u8,
        minute: u8,
    );

    /// Returns the zone in the type of the library, or `Some(None)` if it is absent. Returns `None` if `form` is not 0 to 2.
    fn read(&self) -> Option<Option<TimeZoneAnnotation<'a, T>>>;
}

/// Writes a zone. If there is none, each field becomes 0, false or empty.
#[inline(always)]
pub fn put_zone<'a, T: EncodingType, Z: ZoneOf<'a, T>>(
    out: &mut Z,
    zone: &Option<TimeZoneAnnotation<'a, T>>,
) {
    match zone {
        None => out.put(&[], 0, false, false, 0, 0),
        Some(it) => match &it.tz {
            TimeZoneRecord::Name(name) => out.put(name, 1, it.critical, false, 0, 0),
            TimeZoneRecord::Offset(offset) => out.put(
                &[],
                2,
                it.critical,
                is_negative(offset.sign),
                offset.hour,
                offset.minute,
            ),
            _ => unreachable!(),
        },
    }
}

/// A record whose slices have code units of the encoding `T`.
pub trait RecordOf<'a, T: EncodingType> {
    /// Writes every field of the record. If a part is absent, its fields become 0, false or empty. `location` becomes empty, and
    /// `place` becomes 0.
    ///
    /// The parts are written directly to the record of the caller. It took sixty instructions more to build a record first and
    /// then to copy it.
    fn write(&mut self, found: &IxdtfParseRecord<'a, T>);

    /// Writes the location and the position of an error, and returns the number of the error.
    fn refuse(&mut self, located: LocatedError) -> u32;

    /// Returns the date as C has it.
    fn date_part(&self) -> &Date;

    /// Returns the time as C has it.
    fn time_part(&self) -> &Time;

    /// Returns the offset as C has it.
    fn offset_part(&self) -> &Offset;

    /// Returns the zone in the type of the library, or `Some(None)` if it is absent. Returns `None` if its `form` is not 0 to 2.
    fn zone_part(&self) -> Option<Option<TimeZoneAnnotation<'a, T>>>;

    /// Returns the code units of the calendar, or `None` if it is absent.
    fn calendar_part(&self) -> Option<&'a [T::CodeUnit]>;
}

/// An annotation whose key and value have code units of the encoding `T`.
pub trait AnnotationOf<'a, T: EncodingType> {
    /// Returns the annotation in the type of the library.
    fn read(&self) -> records::Annotation<'a, T>;
}

/// The calendar that was kept. Its value has code units of the encoding `T`.
pub trait CalendarOf<'a, T: EncodingType> {
    /// Returns the annotation that was kept, or `None`. Its key is `u-ca`.
    fn read(&self) -> Option<records::Annotation<'a, T>>;

    /// Keeps the value of an annotation, and whether it is critical. The key is not stored, because it is always `u-ca`. For
    /// `None`, no calendar is kept.
    fn write(&mut self, kept: Option<records::Annotation<'a, T>>);
}
