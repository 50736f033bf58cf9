// Made by tools/to_rust.py of crates/ixdtf_checks/src/csv.rt. Do not edit.

//! The fields of a record of RFC 4180. Some of these fields may be in quotes.

use crate::line_part::{Lost, Part};
use crate::verdict::LINE_LIMIT;
use ixdtf_buffers::adding::{add_byte, add_bytes};
use ixdtf_buffers::place::place_of;

/// The double quote.
pub const QUOTE: u8 = b'"';

/// What is wrong with the quotes of a line.
#[derive(Clone, Copy, Debug, PartialEq)]
pub enum Quoting {
    /// A field begins with a quote, but the line has no quote that closes it.
    NotClosed,
    /// After a closing quote, neither a separator nor the end of the line follows.
    TextAfter,
    /// A field has a quote, but does not begin with one.
    Stray,
}

/// Why a line is no record of RFC 4180.
#[derive(Clone, Copy)]
pub struct Broken {
    /// The index of the byte that is wrong.
    pub at: usize,
    /// What is wrong.
    pub quoting: Quoting,
}

/// Where the first field of some bytes ends.
#[derive(Clone, Copy)]
pub enum Ending {
    /// At the end of the bytes.
    Last,
    /// Before the separator at this index.
    At(usize),
    /// The bytes do not begin with a field.
    Bad(Broken),
}

/// How far the function `walk` went in a line. The function tries to pass over a given number of fields at the beginning of the line.
#[derive(Clone, Copy)]
pub enum Walked {
    /// To the field that begins at this index.
    Behind(usize),
    /// To the end of the line, which has too few fields.
    Ended,
    /// To a field that is wrong. `Broken` says which byte is wrong.
    Lost(Broken),
}

/// `bytes` are the bytes after the quote that opens a field. Returns the index in `bytes` of the quote that closes this
/// field. A doubled quote does not close the field.
fn closing_quote(bytes: &[u8]) -> Option<usize> {
    let mut start = 0;
    'quotes: while let Some(place) = place_of(QUOTE, &bytes[start..]) {
        let at = start + place;
        if !begins_quoted(&bytes[at + 1..]) {
            return Some(at);
        }
        start = at + 2;
    }
    None
}

/// Returns whether the bytes begin with a quote.
fn begins_quoted(bytes: &[u8]) -> bool {
    match bytes {
        [first, ..] => *first == QUOTE,
        [] => false,
    }
}

/// Returns where the first field ends.
pub fn first_ending(separator: u8, bytes: &[u8]) -> Ending {
    if begins_quoted(bytes) {
        quoted_ending(separator, bytes)
    } else {
        plain_ending(separator, bytes)
    }
}

/// Returns where the first field ends. This field begins with a quote.
fn quoted_ending(separator: u8, bytes: &[u8]) -> Ending {
    let Some(place) = closing_quote(&bytes[1..]) else {
        return Ending::Bad(Broken {
            at: 0,
            quoting: Quoting::NotClosed,
        });
    };
    let after = place + 2;
    if after == bytes.len() {
        return Ending::Last;
    }
    if bytes[after] == separator {
        return Ending::At(after);
    }
    Ending::Bad(Broken {
        at: after,
        quoting: Quoting::TextAfter,
    })
}

/// Returns where the first field ends. This field does not begin with a quote.
fn plain_ending(separator: u8, bytes: &[u8]) -> Ending {
    match place_of(separator, bytes) {
        None => match place_of(QUOTE, bytes) {
            None => Ending::Last,
            Some(at) => Ending::Bad(Broken {
                at,
                quoting: Quoting::Stray,
            }),
        },
        Some(place) => match place_of(QUOTE, &bytes[..place]) {
            None => Ending::At(place),
            Some(at) => Ending::Bad(Broken {
                at,
                quoting: Quoting::Stray,
            }),
        },
    }
}

/// Goes to the field after `count` other fields.
fn walk(separator: u8, count: usize, line: &[u8]) -> Walked {
    let mut start = 0;
    let mut left = count;
    'fields: while left > 0 {
        match first_ending(separator, &line[start..]) {
            Ending::Last => return Walked::Ended,
            Ending::At(place) => start += place + 1,
            Ending::Bad(broken) => {
                return Walked::Lost(Broken {
                    at: start + broken.at,
                    quoting: broken.quoting,
                });
            }
        }
        left -= 1;
    }
    Walked::Behind(start)
}

/// Returns the field that has `before` fields before it in the line. Returns an error if the line is no record, or has too few fields.
pub fn field_in_record<'a>(
    separator: u8,
    before: usize,
    line: &'a [u8],
    unquoted: &'a mut [u8; LINE_LIMIT],
) -> Result<Part<'a>, Lost> {
    match walk(separator, before, line) {
        Walked::Ended => Err(Lost::NoField),
        Walked::Lost(broken) => Err(Lost::Broken(broken)),
        Walked::Behind(start) => match first_field(separator, &line[start..]) {
            Err(broken) => Err(Lost::Broken(Broken {
                at: start + broken.at,
                quoting: broken.quoting,
            })),
            Ok(count) => Ok(part_in(start, &line[start..start + count], unquoted)),
        },
    }
}

/// Returns the number of bytes of the first field. Returns an error if the bytes are no record.
fn first_field(separator: u8, bytes: &[u8]) -> Result<usize, Broken> {
    match first_ending(separator, bytes) {
        Ending::Last => Ok(bytes.len()),
        Ending::Bad(broken) => Err(broken),
        Ending::At(place) => match check_record(separator, &bytes[place + 1..]) {
            Ok(()) => Ok(place),
            Err(broken) => Err(Broken {
                at: place + 1 + broken.at,
                quoting: broken.quoting,
            }),
        },
    }
}

/// Returns an error if the bytes are no record.
fn check_record(separator: u8, bytes: &[u8]) -> Result<(), Broken> {
    match walk(separator, bytes.len() + 1, bytes) {
        Walked::Lost(broken) => Err(broken),
        Walked::Ended => Ok(()),
        Walked::Behind(_) => Ok(()),
    }
}

/// Returns the `Part` of a line that belongs to a field. `bytes` are the bytes of the field in the line, with the quotes around
/// it if there are any. `start` is the number of bytes of the line before the field.
pub fn part_in<'a>(start: usize, bytes: &'a [u8], unquoted: &'a mut [u8; LINE_LIMIT]) -> Part<'a> {
    if !is_escaped(bytes) {
        return Part {
            start,
            text: bytes,
            is_quoted: false,
        };
    }
    Part {
        start: start + 1,
        text: without_doubles(&bytes[1..bytes.len() - 1], unquoted),
        is_quoted: true,
    }
}

/// Returns whether the bytes of a field are in quotes.
fn is_escaped(bytes: &[u8]) -> bool {
    match bytes {
        [first, _, ..] => *first == QUOTE,
        _ => false,
    }
}

/// Returns the bytes with one quote instead of each doubled quote. Copies them to `unquoted` if they have quotes.
fn without_doubles<'a>(bytes: &'a [u8], unquoted: &'a mut [u8; LINE_LIMIT]) -> &'a [u8] {
    match place_of(QUOTE, bytes) {
        None => bytes,
        Some(_) => {
            let end = add_undoubled(unquoted, bytes);
            &unquoted[..end]
        }
    }
}

/// Copies the bytes with one quote instead of each doubled quote, and returns the number of the copied bytes.
fn add_undoubled(unquoted: &mut [u8; LINE_LIMIT], bytes: &[u8]) -> usize {
    let mut end = 0;
    let mut rest = bytes;
    'quotes: while let Some(place) = place_of(QUOTE, rest) {
        let middle = add_bytes(unquoted, end, &rest[..place]);
        end = add_byte(unquoted, middle, QUOTE);
        rest = &rest[rest.len().min(place + 2)..];
    }
    add_bytes(unquoted, end, rest)
}

/// Returns the number of quotes in the bytes.
#[inline(never)]
pub fn quotes_in(bytes: &[u8]) -> usize {
    let mut count = 0;
    for byte in bytes {
        if *byte == QUOTE {
            count += 1;
        }
    }
    count
}
