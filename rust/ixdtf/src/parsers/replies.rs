// Made by tools/to_rust.py of crates/ixdtf/src/parsers/replies.rt. Do not edit.

//! Functions that call the handler, and keep the first of its replies with the key `u-ca`.

use crate::Reason;
use crate::encoding::EncodingType;
use crate::records::Annotation;
use crate::parsers::annotations::next_annotation;
use crate::cursor::Cursor;

/// Calls the handler with an annotation. This is the only function that calls it.
#[inline(always)]
fn ask<'a, T: EncodingType, F>(
    handler: &mut F,
    annotation: Annotation<'a, T>,
) -> Option<Annotation<'a, T>>
where
    F: FnMut(Annotation<'a, T>) -> Option<Annotation<'a, T>>,
{
    handler(annotation)
}

/// A *calendar* is an annotation with the key `u-ca`. If the reply is a calendar, and no earlier reply was one, keeps it.
///
/// Returns `UnrecognizedCritical` if the reply is critical and is not a calendar. Returns `CriticalDuplicateCalendar`
/// if it is a calendar, its value differs from that of the first one, and at least one of the two is critical. If none
/// of the two is critical, the values are not compared. The cursor counts the code units that are compared, and does not
/// move.
#[inline(always)]
pub(crate) fn keep_first_calendar<'a, T: EncodingType>(
    cursor: &mut Cursor<'a, T>,
    calendar: &mut Option<Annotation<'a, T>>,
    reply: Option<Annotation<'a, T>>,
) -> Result<(), Reason> {
    let Some(found) = reply else {
        return Ok(());
    };
    if !cursor.is_calendar_key(found.key) {
        if found.critical {
            return Err(Reason::UnrecognizedCritical);
        }
        return Ok(());
    }
    match calendar {
        None => {
            *calendar = Some(found);
            Ok(())
        }
        Some(first) => {
            if (first.critical || found.critical)
                && !cursor.has_same_units(first.value, found.value)
            {
                return Err(Reason::CriticalDuplicateCalendar);
            }
            Ok(())
        }
    }
}

/// Reads the annotations up to the end of the input, and calls the handler with each after its bracket has been read.
///
/// Returns the calendar that is kept. `first` is an annotation that has already been read, if there is one.
#[inline(always)]
pub fn parse_annotations<'a, T: EncodingType, F>(
    cursor: &mut Cursor<'a, T>,
    first: Option<Annotation<'a, T>>,
    handler: &mut F,
) -> Result<Option<Annotation<'a, T>>, Reason>
where
    F: FnMut(Annotation<'a, T>) -> Option<Annotation<'a, T>>,
{
    let mut calendar = None;
    if let Some(annotation) = first {
        let reply = ask::<T, F>(handler, annotation);
        keep_first_calendar::<T>(cursor, &mut calendar, reply)?;
    }
    while let Some(annotation) = next_annotation(cursor)? {
        let reply = ask::<T, F>(handler, annotation);
        keep_first_calendar::<T>(cursor, &mut calendar, reply)?;
    }
    Ok(calendar)
}
