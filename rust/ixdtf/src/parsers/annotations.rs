// Made by tools/to_rust.py of crates/ixdtf_reading/src/annotations.rt. Do not edit.

//! Functions that read annotations: a key and a value in brackets.
//!
//! Most of these functions begin at the code unit before the part that they read, for example at the `[` before a key. The function
//! or its caller tests the first code unit of the part. If the test succeeds, the function consumes two code units in one step: the
//! one before the part, and the first one of the part.

use crate::classes::{
    is_a_key_char, is_a_key_leading_char, is_annotation_close, is_annotation_key_value_separator,
    is_annotation_open, is_annotation_value_component, is_critical_flag, is_hyphen,
};
use crate::cursor::Cursor;
use crate::parsers::letters::{Letters, pass_letters};
use crate::stop::stopped;
use crate::Reason;
use crate::encoding::EncodingType;
use crate::records::Annotation;

// ==== Keys and values ====

/// The class of the code units that a key can contain.
pub struct KeyLetters;

impl Letters for KeyLetters {
    #[inline(always)]
    fn has(byte: u8) -> bool {
        is_a_key_char(byte)
    }
}

/// Consumes the code unit before a key, and the key. Returns the code units of the key. Returns `InKey` if no `=` follows the key. The
/// `=` is not consumed.
///
/// The caller has tested the first code unit of the key.
#[inline(always)]
pub fn parse_annotation_key<'a, T: EncodingType>(
    cursor: &mut Cursor<'a, T>,
) -> Result<&'a [T::CodeUnit], Reason> {
    let start = cursor.rest_behind();
    if !cursor.advance_two() {
        return Err(Reason::InKey);
    }
    let next = pass_letters::<T, KeyLetters>(cursor, Reason::InKey)?;
    if !ends_key(next) {
        return stopped(Reason::InKey);
    }
    Ok(&start[..start.len().saturating_sub(cursor.remaining())])
}

/// Returns whether the code unit is the `=` after a key.
#[inline(always)]
pub fn ends_key(next: Option<u8>) -> bool {
    matches!(next, Some(byte) if is_annotation_key_value_separator(byte))
}

/// The class of the code units that a component of a value can contain. The components of a value are its parts between hyphens.
pub struct ComponentLetters;

impl Letters for ComponentLetters {
    #[inline(always)]
    fn has(byte: u8) -> bool {
        is_annotation_value_component(byte)
    }
}

/// Consumes the code unit before a component, and the first code unit of the component. If there is no component, consumes only the
/// code unit before it, and returns `stop`.
#[inline(always)]
fn start_component<'a, T: EncodingType>(
    cursor: &mut Cursor<'a, T>,
    stop: Reason,
) -> Result<(), Reason> {
    if is_annotation_value_component(cursor.byte_at(1)) {
        if !cursor.advance_two() {
            return Err(stop);
        }
        return Ok(());
    }
    cursor.advance();
    stopped(stop)
}

/// Reads the `=` before a value, the value, and the `]` after it. Returns the code units of the value.
///
/// A value consists of components. One hyphen separates each component from the next one.
#[inline(always)]
pub fn parse_annotation_value<'a, T: EncodingType>(
    cursor: &mut Cursor<'a, T>,
) -> Result<&'a [T::CodeUnit], Reason> {
    let start = cursor.rest_behind();
    start_component(cursor, Reason::ValueStart)?;
    loop {
        let next = pass_letters::<T, ComponentLetters>(cursor, Reason::InValue)?;
        match next {
            None => return stopped(Reason::InValue),
            Some(byte) if is_annotation_close(byte) => {
                let value = &start[..start.len().saturating_sub(cursor.remaining())];
                cursor.advance();
                return Ok(value);
            }
            Some(byte) if is_hyphen(byte) => {}
            Some(_) => return stopped(Reason::InValue),
        }
        start_component(cursor, Reason::AfterValueHyphen)?;
    }
}

// ==== Annotations ====

/// Consumes one code unit, and reads an annotation after it: a key, `=`, a value and `]`. The caller has tested the first code unit of
/// the key.
#[inline(always)]
fn parse_pair<'a, T: EncodingType>(
    cursor: &mut Cursor<'a, T>,
    critical: bool,
) -> Result<Annotation<'a, T>, Reason> {
    let key = parse_annotation_key(cursor)?;
    let value = parse_annotation_value(cursor)?;
    Ok(Annotation {
        critical,
        key,
        value,
    })
}

/// Reads an annotation at its `[`. The annotation is not in the first bracket of the text.
#[inline(always)]
fn parse_later_pair<'a, T: EncodingType>(
    cursor: &mut Cursor<'a, T>,
) -> Result<Annotation<'a, T>, Reason> {
    let lead = cursor.byte_at(1);
    if is_a_key_leading_char(lead) {
        return parse_pair(cursor, false);
    }
    cursor.advance();
    if is_critical_flag(lead) {
        return call_critical_pair(cursor);
    }
    stopped(Reason::KeyStart)
}

/// Does the work of `parse_critical_pair`, with a cursor of its own.
///
/// Rattle sets the variables of an inlined function to zero where its code begins. In a function of its own, `here` and `read` are
/// set to zero for critical annotations only. In `parse_later_pair`, each annotation took five instructions more.
#[inline(always)]
fn call_critical_pair<'a, T: EncodingType>(
    cursor: &mut Cursor<'a, T>,
) -> Result<Annotation<'a, T>, Reason> {
    let mut here = cursor.fork();
    let read = parse_critical_pair(&mut here);
    *cursor = here;
    read
}

/// Reads an annotation at its `!`. The annotation is not in the first bracket of the text.
///
/// The function is not inlined, because critical annotations are rare. Otherwise `parse_later_pair` would have the code
/// for an annotation twice, and Rattle would not inline it: it ignores `inline(always)` on a function that is too large.
#[inline(never)]
fn parse_critical_pair<'a, T: EncodingType>(
    cursor: &mut Cursor<'a, T>,
) -> Result<Annotation<'a, T>, Reason> {
    if is_a_key_leading_char(cursor.byte_at(1)) {
        return parse_pair(cursor, true);
    }
    cursor.advance();
    stopped(Reason::CriticalKeyStart)
}

/// Reads the next annotation, after a bracket that is completely consumed. Returns `None` at the end of the input.
#[inline(always)]
pub fn next_annotation<'a, T: EncodingType>(
    cursor: &mut Cursor<'a, T>,
) -> Result<Option<Annotation<'a, T>>, Reason> {
    match cursor.look(Reason::AfterBracket)? {
        None => Ok(None),
        Some(byte) if is_annotation_open(byte) => {
            let annotation = parse_later_pair(cursor)?;
            Ok(Some(annotation))
        }
        Some(_) => Err(Reason::AfterBracket),
    }
}
