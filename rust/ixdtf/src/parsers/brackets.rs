// Made by tools/to_rust.py of crates/ixdtf_brackets/src/brackets.rt. Do not edit.

//! Functions that read the first bracket, which can be a zone or an annotation.

use crate::parsers::zone::{
    NameState, PassedName, parse_name_in_bracket, parse_offset_in_bracket, pass_name,
};
use crate::Reason;
use crate::encoding::EncodingType;
use crate::records::{Annotation, TimeZoneAnnotation, TimeZoneRecord};
use crate::parsers::annotations::{KeyLetters, ends_key, parse_annotation_value};
use crate::classes::{
    is_a_key_leading_char, is_annotation_close, is_annotation_key_value_separator, is_ascii_sign,
    is_critical_flag, is_tz_leading_char,
};
use crate::cursor::Cursor;
use crate::parsers::letters::{Letters, pass_letters};

/// A first bracket: a zone or an annotation.
pub enum Bracket<'a, T: EncodingType> {
    Zone(TimeZoneAnnotation<'a, T>),
    Pair(Annotation<'a, T>),
}

/// Reads a first bracket after its `[`.
#[inline(always)]
pub fn parse_first_bracket<'a, T: EncodingType>(
    cursor: &mut Cursor<'a, T>,
) -> Result<Bracket<'a, T>, Reason> {
    let mut critical = false;
    let mut stop = Reason::FirstBracketStart;
    let mut lead = cursor.look(stop)?;
    if is_flag(lead) {
        critical = true;
        cursor.advance();
        stop = Reason::FirstCriticalStart;
        lead = cursor.look(stop)?;
    }
    // Call `parse_inside` at one place only. Its code is large: with two calls it was compiled twice and not inlined,
    // and its result went through memory.
    match lead {
        Some(byte) if is_ascii_sign(byte) || is_tz_leading_char(byte) => {
            parse_inside(cursor, critical, byte)
        }
        _ => Err(stop),
    }
}

/// Returns whether the code unit is the `!` of a critical bracket.
#[inline(always)]
fn is_flag(next: Option<u8>) -> bool {
    matches!(next, Some(byte) if is_critical_flag(byte))
}

/// Reads the content of a first bracket, and its `]`. The caller has tested the first code unit of the content.
#[inline(always)]
fn parse_inside<'a, T: EncodingType>(
    cursor: &mut Cursor<'a, T>,
    critical: bool,
    lead: u8,
) -> Result<Bracket<'a, T>, Reason> {
    if is_a_key_leading_char(lead) {
        return parse_name_or_pair(cursor, critical);
    }
    let tz = if is_ascii_sign(lead) {
        cursor.advance();
        parse_offset_in_bracket(cursor, lead)?
    } else {
        TimeZoneRecord::Name(parse_name_in_bracket(cursor)?)
    };
    Ok(Bracket::Zone(TimeZoneAnnotation { critical, tz }))
}

/// Returns whether the code unit is the `]` of a bracket.
#[inline(always)]
fn ends_bracket(next: Option<u8>) -> bool {
    matches!(next, Some(byte) if is_annotation_close(byte))
}

/// Reads an annotation if an `=` comes before any `]`, and otherwise a name. Also consumes the `]` of the bracket.
///
/// A name can contain every character that a key can contain. So the function first consumes the characters of a key,
/// and then those of a name. It reads further ahead only if it returns an error.
#[inline(always)]
fn parse_name_or_pair<'a, T: EncodingType>(
    cursor: &mut Cursor<'a, T>,
    critical: bool,
) -> Result<Bracket<'a, T>, Reason> {
    let start = cursor.rest();
    let next = pass_letters::<T, KeyLetters>(cursor, Reason::FirstBracketScan)?;
    let behind_key = cursor.rest();
    let key = &start[..start.len().saturating_sub(behind_key.len())];
    if ends_key(next) {
        let value = parse_first_value(cursor)?;
        return Ok(Bracket::Pair(Annotation {
            critical,
            key,
            value,
        }));
    }
    let more = pass_rest_of_name(cursor)?;
    if more.state.may_end && ends_bracket(more.next) {
        let count = start.len().saturating_sub(cursor.rest().len());
        cursor.advance();
        return Ok(Bracket::Zone(TimeZoneAnnotation {
            critical,
            tz: TimeZoneRecord::Name(&start[..count]),
        }));
    }
    if more.next.is_none() {
        return Err(Reason::FirstBracketScan);
    }
    let refused = refuse_bracket(cursor.fork(), behind_key, more.state);
    *cursor = refused.there;
    Err(refused.stop)
}

/// Reads the `=` before the value of an annotation, the value, and the `]` after it, in a first bracket. Returns the code units
/// of the value.
///
/// This function and `pass_rest_of_name` are functions of their own, so that `parse_inside` is not too large. Rattle's compiler
/// ignores `#[inline(always)]` for a function that would become very large. If it ignored the attribute of `parse_inside`, each
/// first bracket would take a call, whose result goes through memory (docs/PERF.md).
fn parse_first_value<'a, T: EncodingType>(
    cursor: &mut Cursor<'a, T>,
) -> Result<&'a [T::CodeUnit], Reason> {
    parse_annotation_value(cursor)
}

/// Consumes the code units of a name that are after the code units of a key, part by part. A `/` separates two parts. At a bad
/// code unit, returns `FirstBracketScan`.
fn pass_rest_of_name<'a, T: EncodingType>(cursor: &mut Cursor<'a, T>) -> Result<PassedName, Reason> {
    pass_name(cursor, Reason::FirstBracketScan, Reason::FirstBracketScan)
}

/// The class of all code units except `=` and `]`.
pub struct BracketLetters;

impl Letters for BracketLetters {
    #[inline(always)]
    fn has(byte: u8) -> bool {
        !is_annotation_key_value_separator(byte) && !is_annotation_close(byte)
    }
}

/// The `Reason` for the error of a first bracket, and a cursor at the position of this error.
struct Refused<'a, T: EncodingType> {
    stop: Reason,
    there: Cursor<'a, T>,
}

/// Returns the `Reason` for the error of a first bracket, and a cursor at the position of this error. The caller has
/// consumed the code units of a name.
///
/// The function is called in two cases. In the first case, a code unit other than `]` follows the consumed ones. In the
/// second case, a `]` follows them, but they end with a `/`, and a name cannot end there.
///
/// - If an `=` comes before any `]`, the bracket is an annotation. The `Reason` is `InKey`. The position is that of the first
///   code unit that a key cannot contain.
/// - If a `]` comes first, the bracket is a zone. The `Reason` is the one that `NameState::stop` returns for the name. The
///   position is that of the first code unit that cannot follow in the name.
/// - Otherwise, the input ends, or has a bad code unit, before any `=` or `]`. The `Reason` is `FirstBracketScan`. The
///   position is the end of the input, or that of the bad code unit.
///
/// The cursor is passed by value, so that the compiler can keep the cursor of the caller in registers.
fn refuse_bracket<'a, T: EncodingType>(
    here: Cursor<'a, T>,
    behind_key: &'a [T::CodeUnit],
    name: NameState,
) -> Refused<'a, T> {
    let behind_name = here.rest();
    let mut ahead = here;
    match pass_letters::<T, BracketLetters>(&mut ahead, Reason::FirstBracketScan) {
        Err(stop) => Refused { stop, there: ahead },
        Ok(next) => match next {
            None => Refused {
                stop: Reason::FirstBracketScan,
                there: ahead,
            },
            Some(byte) if is_annotation_key_value_separator(byte) => Refused {
                stop: Reason::InKey,
                there: ahead.fork_at(behind_key),
            },
            Some(_) => Refused {
                stop: name.stop(),
                there: ahead.fork_at(behind_name),
            },
        },
    }
}
