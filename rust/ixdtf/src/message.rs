// Made by tools/to_rust.py of crates/ixdtf_explanations/src/message.rt. Do not edit.

//! Messages that say what is wrong in a text that a reader refused.

use crate::located::{LocatedError, LocatedReason, valid_front};
use crate::wording::{Context, Wording, wording_of};
use core::fmt;
use core::str::from_utf8;

/// A message that says why a reader refused a text, as [`LocatedError::message_in`] returns it. A hint of
/// [`LocatedError::hint_in`], which says what to change in the text, is a `Message` too.
///
/// `Display` writes one line of plain English, without a newline and without a full stop. A message of `message_in` says
/// what the reader found in the text, and what it expected. A hint says what to change. `docs/FAULTS.md` has the message
/// for each line of the fault table, and all hints.
///
/// A message can show something of the text: either a part, such as a number, or one character. A part is written as it is. A character from
/// U+0021 to U+007E, except the backtick, is written in backticks, as `` `x` ``. Any other character is written by its name,
/// such as `a space`, or by its number, such as `U+00E3`. If the bytes of the text are not UTF-8 there, the message shows one
/// byte by its number, such as `the byte 0xE3`.
///
/// # Examples
///
/// ```rust
/// use ixdtf::parsers::IxdtfParser;
///
/// let text = "2024-3-02";
/// let error = IxdtfParser::from_str(text).parse_located().unwrap_err();
/// let message = error.message_in(text.as_bytes()).to_string();
/// assert_eq!(message, "expected a digit of the month, which has two, found `-`");
/// ```
#[derive(Clone, Copy, Debug)]
pub struct Message<'a> {
    /// The words before the part or the character.
    pub before: &'static str,
    /// The part or the character that is shown.
    pub shown: Shown<'a>,
    /// The words after the part or the character.
    pub after: &'static str,
}

/// What a [`Message`] shows of the text.
///
/// `Display` writes it as the message does.
///
/// # Examples
///
/// ```rust
/// use ixdtf::Shown;
/// use ixdtf::parsers::IxdtfParser;
///
/// let text = "2024-3-02";
/// let error = IxdtfParser::from_str(text).parse_located().unwrap_err();
/// let message = error.message_in(text.as_bytes());
/// assert!(matches!(message.shown, Shown::Character('-')));
/// assert_eq!(message.shown.to_string(), "`-`");
/// ```
#[derive(Clone, Copy, Debug)]
pub enum Shown<'a> {
    /// Nothing. `Display` writes nothing.
    Nothing,
    /// A part of the text, such as a number. `Display` writes it as it is.
    Part(&'a str),
    /// A character. `Display` writes a character from U+0021 to U+007E in backticks, and any other character by its name or by its
    /// number.
    Character(char),
    /// A byte, because the bytes of the text are not UTF-8 there. `Display` writes its number, such as `the byte 0xE9`.
    Byte(u8),
}

impl LocatedError {
    /// Returns a message that says what the reader found in the text, and what it expected.
    ///
    /// `text` must be the complete source of the parser that returned this error. This parser must not have returned `Ok`
    /// before. [`in_text`](LocatedError::in_text) has the same two conditions. If the source has 8-bit code units, `text` is
    /// the source itself, which need not be valid UTF-8. If the source has 16-bit code units, `text` must be this source,
    /// converted to UTF-8.
    ///
    /// # Examples
    ///
    /// ```rust
    /// use ixdtf::parsers::IxdtfParser;
    ///
    /// let text = "2024-13-01";
    /// let error = IxdtfParser::from_str(text).parse_located().unwrap_err();
    /// let message = error.message_in(text.as_bytes());
    /// assert_eq!(message.to_string(), "the month is 13, and has to be 01 to 12");
    /// ```
    pub fn message_in<'a>(&self, text: &'a [u8]) -> Message<'a> {
        self.located_reason().message_in(text)
    }
}

impl LocatedReason {
    /// Returns the message about an error with this reason and this position, as [`LocatedError::message_in`] does.
    pub fn message_in(self, text: &[u8]) -> Message<'_> {
        let at = self.at.min(text.len());
        let (front, rest) = text.split_at(at);
        match wording_of(self.reason, Context::of(front, rest)) {
            Wording::Fixed(words) => Message {
                before: words,
                shown: Shown::Nothing,
                after: "",
            },
            Wording::Found(words) => Message {
                before: words,
                shown: shown_first(rest),
                after: "",
            },
            Wording::AroundPart(before, after) => {
                let part = self.part_in(text);
                let end = part.end.min(text.len());
                Message {
                    before,
                    shown: shown_part(&text[part.begin.min(end)..end]),
                    after,
                }
            }
            Wording::AroundUnit(before, after) => {
                let (_, unit) = text.split_at(at.saturating_sub(1));
                Message {
                    before,
                    shown: shown_first(unit),
                    after,
                }
            }
        }
    }
}

// `Display` ignores width and fill.
impl<'a> fmt::Display for Message<'a> {
    fn fmt(&self, f: &mut fmt::Formatter<'_>) -> fmt::Result {
        f.write_str(self.before)?;
        write_shown(f, self.shown)?;
        f.write_str(self.after)
    }
}

// `Display` ignores width and fill.
impl<'a> fmt::Display for Shown<'a> {
    fn fmt(&self, f: &mut fmt::Formatter<'_>) -> fmt::Result {
        write_shown(f, *self)
    }
}

/// Shows the part if it is UTF-8, and otherwise nothing.
pub(crate) fn shown_part(part: &[u8]) -> Shown<'_> {
    match from_utf8(part) {
        Ok(text) => Shown::Part(text),
        Err(_) => Shown::Nothing,
    }
}

/// Shows the first character, or the first byte if no character begins there, or nothing if there is no byte.
///
/// Most characters are ASCII. They are not looked up by `first_character`, which would take about 90 instructions.
#[inline(always)]
pub(crate) fn shown_first(rest: &[u8]) -> Shown<'static> {
    match rest.first() {
        None => Shown::Nothing,
        Some(byte) if byte.is_ascii() => Shown::Character(char::from(*byte)),
        Some(byte) => match first_character(&rest[..rest.len().min(4)]) {
            Some(character) => Shown::Character(character),
            None => Shown::Byte(*byte),
        },
    }
}

/// Returns the first character, if the bytes begin with one.
fn first_character(bytes: &[u8]) -> Option<char> {
    valid_front(bytes).chars().next()
}

/// Writes what a message shows of the text.
fn write_shown(f: &mut fmt::Formatter<'_>, shown: Shown<'_>) -> fmt::Result {
    match shown {
        Shown::Nothing => Ok(()),
        Shown::Part(text) => f.write_str(text),
        Shown::Character(character) => write_character(f, character),
        Shown::Byte(byte) => write_byte(f, byte),
    }
}

/// Writes the character in backticks, or its name, or its number.
fn write_character(f: &mut fmt::Formatter<'_>, character: char) -> fmt::Result {
    match character {
        ' ' => f.write_str("a space"),
        '\t' => f.write_str("a tab"),
        '\n' => f.write_str("a newline"),
        '\r' => f.write_str("a carriage return"),
        '`' => f.write_str("a backtick"),
        '!'..='~' => write_quoted(f, character),
        _ => write_number(f, character),
    }
}

/// Writes the character in backticks.
fn write_quoted(f: &mut fmt::Formatter<'_>, character: char) -> fmt::Result {
    write!(f, "`{character}`")
}

/// Writes the number of the character, and its name if people confuse it with another character.
fn write_number(f: &mut fmt::Formatter<'_>, character: char) -> fmt::Result {
    let number = u32::from(character);
    let name = look_alike(character);
    write!(f, "U+{number:04X}{name}")
}

/// Writes a byte with which no character begins.
fn write_byte(f: &mut fmt::Formatter<'_>, byte: u8) -> fmt::Result {
    write!(f, "the byte 0x{byte:02X}")
}

/// Returns the name of a character that looks like a space or a `-`, or with which some files begin.
pub fn look_alike(character: char) -> &'static str {
    match character {
        '\u{a0}' => " (no-break space)",
        '\u{202f}' => " (narrow no-break space)",
        '\u{2010}' => " (hyphen)",
        '\u{2013}' => " (en dash)",
        '\u{2212}' => " (minus sign)",
        '\u{feff}' => " (byte order mark)",
        _ => "",
    }
}
