// Made by tools/to_rust.py of crates/ixdtf/src/parsers/texts.rt. Do not edit.

//! Functions that read complete texts: a core, a first bracket, and the brackets after it.

use crate::parsers::cores::CoreReader;
use crate::parsers::replies::parse_annotations;
use crate::parsers::{FromStop, IxdtfParser};
use crate::parsers::brackets::Bracket;
use crate::parsers::exact_zones::parse_bracket_by;
use crate::Reason;
use crate::encoding::EncodingType;
use crate::parsers::profile::Profile;
use crate::records::{Annotation, IxdtfParseRecord};
use crate::codes::code_of;
use crate::cursor::Cursor;
use crate::stop::StopAt;
use crate::parsers::offsets::AfterCore;

impl<'a, T: EncodingType> IxdtfParser<'a, T> {
    /// Reads all of the remaining input into an empty record. After an error, the remaining input is unchanged.
    ///
    /// All public readers of `IxdtfParser` without a handler call this function through `read_unhandled`, except
    /// `parse_rfc3339` and `parse_rfc3339_located`. The readers with a handler call `read_handled`.
    ///
    /// Most of these readers make the record as a local variable, and then have a `match` on the result of the call.
    /// For speed, one arm of this `match` gives the record, and the arm of the error has its own `return`. The arm of
    /// the error could also give the value of the `match`, without a `return`. Or a function could return the record in
    /// its result, and the reader could pass this result on. In both cases, the record would be copied once more.
    #[inline(always)]
    pub(crate) fn read_into<C: CoreReader, F>(
        &mut self,
        handler: &mut F,
        found: &mut IxdtfParseRecord<'a, T>,
    ) -> Result<(), StopAt>
    where
        F: FnMut(Annotation<'a, T>) -> Option<Annotation<'a, T>>,
    {
        let mut here = self.cursor.fork();
        match parse_text::<T, C, F>(&mut here, self.profile, handler, found) {
            Ok(()) => {
                self.cursor = here;
                Ok(())
            }
            Err(stop) => {
                let at = self.cursor.remaining().saturating_sub(here.remaining());
                let next = here.next();
                Err(StopAt {
                    reason: stop,
                    code: code_of(stop, true, next),
                    at,
                })
            }
        }
    }

    /// Reads all of the remaining input with a handler. After an error, the remaining input is unchanged.
    ///
    /// `read_as` and `read_lending_handler` call this function. It is compiled once for each handler. So that the compiled
    /// code is small, it has little more than what depends on the handler. It calls the function `parse_front`, which reads the
    /// core and the first bracket, and is compiled once for all handlers.
    #[inline(always)]
    pub(crate) fn read_handled<E: FromStop, C: CoreReader, F>(
        &mut self,
        handler: &mut F,
    ) -> Result<IxdtfParseRecord<'a, T>, E>
    where
        F: FnMut(Annotation<'a, T>) -> Option<Annotation<'a, T>>,
    {
        let mut text = OpenText {
            here: self.cursor.fork(),
            found: IxdtfParseRecord::default(),
            first: None,
        };
        match parse_handled_text::<T, C, F>(&mut text, self.profile, handler) {
            Ok(()) => {
                self.cursor = text.here;
                Ok(text.found)
            }
            Err(stop) => {
                let refused = refuse(&mut text, self.cursor.remaining(), stop);
                return refused;
            }
        }
    }
}

/// Reads a core of the kind that `C` reads under the profile. Then reads the brackets after it, up to the end of the
/// input. Writes both into an empty record. Calls the handler with each annotation.
fn parse_text<'a, T: EncodingType, C: CoreReader, F>(
    cursor: &mut Cursor<'a, T>,
    profile: Profile,
    handler: &mut F,
    found: &mut IxdtfParseRecord<'a, T>,
) -> Result<(), Reason>
where
    F: FnMut(Annotation<'a, T>) -> Option<Annotation<'a, T>>,
{
    let mut here = cursor.fork();
    let read = C::parse_core(&mut here, profile, found);
    *cursor = here;
    if read?.opens_bracket() {
        return parse_brackets(cursor, C::has_exact_zones(), found, handler);
    }
    Ok(())
}

/// Reads all brackets of a text, up to the end of the input: the first bracket, and the annotations after it. The core
/// and the first `[` have already been read. If `is_exact`, a zone in the first bracket must have the form of RFC 9557,
/// section 4.1.
#[inline(never)]
fn parse_brackets<'a, T: EncodingType, F>(
    cursor: &mut Cursor<'a, T>,
    is_exact: bool,
    found: &mut IxdtfParseRecord<'a, T>,
    handler: &mut F,
) -> Result<(), Reason>
where
    F: FnMut(Annotation<'a, T>) -> Option<Annotation<'a, T>>,
{
    let mut here = cursor.fork();
    let bracket = parse_bracket_by(&mut here, is_exact);
    *cursor = here;
    let first = place_bracket(bracket?, found);
    let mut here = cursor.fork();
    let calendar = parse_annotations::<T, F>(&mut here, first, handler);
    *cursor = here;
    place_calendar(calendar?, found);
    Ok(())
}

/// A text of which a part was read. All that a reader with a handler knows about its text is in one value, so it is passed
/// on with one reference.
struct OpenText<'a, T: EncodingType> {
    /// The cursor after the part that was read.
    here: Cursor<'a, T>,
    /// The record of what was found.
    found: IxdtfParseRecord<'a, T>,
    /// The annotation of the first bracket, if it has one.
    first: Option<Annotation<'a, T>>,
}

/// Reads a core of the kind that `C` reads under the profile, and the brackets after it, up to the end of the input. Calls
/// the handler with each annotation.
#[inline(always)]
fn parse_handled_text<'a, T: EncodingType, C: CoreReader, F>(
    text: &mut OpenText<'a, T>,
    profile: Profile,
    handler: &mut F,
) -> Result<(), Reason>
where
    F: FnMut(Annotation<'a, T>) -> Option<Annotation<'a, T>>,
{
    match parse_front::<T, C>(text.here.fork(), profile, text)? {
        AfterCore::End => {
            text.here.advance_by(text.here.remaining());
            Ok(())
        }
        AfterCore::Bracket => parse_later_brackets(text, handler),
    }
}

/// Reads the *front* of a text: a core of the kind that `C` reads under the profile, and the first bracket, if the text has
/// brackets. `start` is the cursor at the beginning of the text. Returns what follows the core.
///
/// The function is not inlined, so it is compiled once for all handlers. `start` is passed by value, so that it stays in
/// registers. After a bracket or an error, the function stores the cursor in the text. If the text ends after its core, nothing
/// remains, and the function does not store the cursor.
#[inline(never)]
fn parse_front<'a, T: EncodingType, C: CoreReader>(
    start: Cursor<'a, T>,
    profile: Profile,
    text: &mut OpenText<'a, T>,
) -> Result<AfterCore, Reason> {
    let mut here = start;
    match C::parse_core(&mut here, profile, &mut text.found) {
        Ok(AfterCore::End) => {
            Ok(AfterCore::End)
        }
        Ok(AfterCore::Bracket) => parse_open_bracket(here, C::has_exact_zones(), text),
        Err(stop) => {
            text.here = here;
            Err(stop)
        }
    }
}

/// Reads the first bracket of a text after its `[`. Returns `Bracket`. If `is_exact`, a zone in the bracket must have the form of
/// RFC 9557, section 4.1.
///
/// The function has a cursor of its own. If `parse_front` used one cursor for the core and for the bracket, each text would take
/// about 20 instructions more.
#[inline(always)]
fn parse_open_bracket<'a, T: EncodingType>(
    start: Cursor<'a, T>,
    is_exact: bool,
    text: &mut OpenText<'a, T>,
) -> Result<AfterCore, Reason> {
    let mut here = start;
    let bracket = parse_bracket_by(&mut here, is_exact);
    text.here = here;
    if let Some(annotation) = place_bracket(bracket?, &mut text.found) {
        text.first = Some(annotation);
    }
    Ok(AfterCore::Bracket)
}

/// Reads the annotations after the front of a text, up to the end of the input, and writes the calendar into the record.
/// Calls the handler with each annotation, also with that of the first bracket.
#[inline(never)]
fn parse_later_brackets<'a, T: EncodingType, F>(
    text: &mut OpenText<'a, T>,
    handler: &mut F,
) -> Result<(), Reason>
where
    F: FnMut(Annotation<'a, T>) -> Option<Annotation<'a, T>>,
{
    // If the annotation were taken out of the text, the code would be larger.
    let first = match &text.first {
        Some(pair) => Some(copied(pair)),
        None => None,
    };
    let mut here = text.here.fork();
    let calendar = parse_annotations::<T, F>(&mut here, first, handler);
    text.here = here;
    place_calendar(calendar?, &mut text.found);
    Ok(())
}

/// Returns a copy of an annotation.
///
/// A `Copy` of an annotation needs a `T` that is `Copy` in Rust.
#[inline(always)]
fn copied<'a, T: EncodingType>(pair: &Annotation<'a, T>) -> Annotation<'a, T> {
    Annotation {
        critical: pair.critical,
        key: pair.key,
        value: pair.value,
    }
}

/// Returns the error of a `Reason`. The cursor of the text is at the position of the error, and `start` is the number of
/// code units that remained before the text was read.
///
/// The function is inlined, although it is then compiled once for each handler: a call would take 10 instructions. The function
/// returns the error as the result of a reader, so the error is written where the reader returns it, and is not copied.
#[inline(always)]
fn refuse<'a, T: EncodingType, E: FromStop>(
    text: &mut OpenText<'a, T>,
    start: usize,
    stop: Reason,
) -> Result<IxdtfParseRecord<'a, T>, E> {
    let at = start.saturating_sub(text.here.remaining());
    let next = text.here.next();
    Err(E::of_stop(StopAt {
        reason: stop,
        code: code_of(stop, true, next),
        at,
    }))
}

/// Writes the zone of a first bracket into the record. If the bracket is an annotation, returns it.
#[inline(always)]
fn place_bracket<'a, T: EncodingType>(
    bracket: Bracket<'a, T>,
    found: &mut IxdtfParseRecord<'a, T>,
) -> Option<Annotation<'a, T>> {
    match bracket {
        Bracket::Zone(zone) => {
            found.tz = Some(zone);
            None
        }
        Bracket::Pair(annotation) => Some(annotation),
    }
}

/// Writes the value of the kept calendar into the record. `parse_annotations` returned this calendar.
#[inline(always)]
fn place_calendar<'a, T: EncodingType>(
    calendar: Option<Annotation<'a, T>>,
    found: &mut IxdtfParseRecord<'a, T>,
) {
    found.calendar = calendar.map(|kept| kept.value);
}
