// Made by tools/to_rust.py of crates/ixdtf/src/parsers.rt. Do not edit.

//! The parsers: [`IxdtfParser`] for dates and times, [`TimeZoneParser`] for offsets and time zones, and
//! [`IsoDurationParser`] for durations.
//!
//! A parsing method accepts its complete input, or returns an error:
//!
//! - It returns `Ok` exactly if the grammar derives the input, and no annotation is refused.
//! - If it returns an error, there is one of two reasons. Either the table of errors has this error for the input, or
//!   an annotation is refused with this error.
//!
//! A *handler* is a closure that the caller passes to a method `*_with_annotation_handler`. The method calls the
//! handler with each annotation up to the first error. The handler returns an annotation, or nothing. If a method has a
//! handler, an annotation is refused only if the handler returned it. In the repository, `docs/GRAMMAR.md` describes
//! the grammar, and `docs/FAULTS.md` has the table of errors.

mod constructors;
mod unhandled;
mod annotations;
mod brackets;
mod cores;
mod date_groups;
mod date_times;
mod dates;
mod duration;
mod exact;
mod exact_zones;
mod group_numbers;
mod handled;
mod letters;
mod months;
mod offsets;
mod profile;
mod replies;
mod rfc3339;
mod texts;
mod time;
mod time_groups;
mod time_zone_parser;
mod zone;

// Only crates of this repository use these types. They are not part of the public interface. `read_lending_handler` is
// generic in them.
#[doc(hidden)]
pub use self::cores::{CoreReader, DateTimes, InternetDateTimes, MonthDays, Times, YearMonths};
pub use self::time_zone_parser::TimeZoneParser;
pub use self::duration::IsoDurationParser;
use crate::encoding::EncodingType;
pub use self::profile::Profile;
use crate::cursor::Cursor;
// The printer uses this function. It is not part of the public interface.
#[doc(hidden)]
pub use crate::classes::is_annotation_value_component;
#[doc(hidden)]
pub use crate::stop::FromStop;
// The printer uses this function. It is not part of the public interface.
#[doc(hidden)]
pub use self::dates::days_in_month;

/// A parser of dates and times, with an offset, a time zone and annotations.
///
/// The parser borrows the text that it parses. It contains only a slice of this text and a profile.
///
/// # Examples
///
/// ```rust
/// use ixdtf::parsers::IxdtfParser;
///
/// let mut parser = IxdtfParser::from_str("2024-03-02");
/// assert_eq!(parser.parse().unwrap().date.unwrap().year, 2024);
/// ```
#[derive(Debug)]
pub struct IxdtfParser<'a, T: EncodingType> {
    cursor: Cursor<'a, T>,
    profile: Profile,
}
