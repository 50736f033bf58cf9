// Made by tools/to_rust.py of crates/ixdtf_explanations/src/located.rt. Do not edit.

//! An error with its position in the text.

use crate::pointed::PointedText;
use crate::{ParseError, Reason};
use crate::stop::{FromStop, StopAt};
use core::error::Error;
use core::fmt;
use core::str::from_utf8;

/// An error, its position in the text and its reason. The `*_located` readers return a `LocatedError`.
///
/// `Display` writes the message of the error, ` at ` and the position, as in
/// `Invalid character while parsing month value. at 5`.
///
/// # Examples
///
/// ```rust
/// use ixdtf::parsers::IxdtfParser;
///
/// let error = IxdtfParser::from_str("2020-x1").parse_located().unwrap_err();
/// assert_eq!(error.to_string(), "Invalid character while parsing month value. at 5");
/// ```
#[derive(Clone, Copy, Debug)]
#[derive(PartialEq)]
pub struct LocatedError {
    /// The error.
    pub error: ParseError,
    /// The position of the error: the number of code units of the input that come before it. If a code unit does not fit, the
    /// position is the index of this code unit. For some errors, the position is after the part that is wrong. For example, it
    /// is 10 for the day of `2024-02-30`, which begins at 8. [`part_in`](LocatedError::part_in) returns the part itself.
    pub at: usize,
    /// The reason: the line of the fault table that fits the text, or the refusal of an annotation.
    pub reason: Reason,
}

/// The reason of an error, and the position of the error. All that a report says about a refused text follows from these two.
///
/// This type has fewer bytes than a [`LocatedError`]. A program that only reports an error keeps this type.
#[derive(Clone, Copy)]
pub struct LocatedReason {
    /// The position, as in [`LocatedError::at`].
    pub at: usize,
    /// The reason, as in [`LocatedError::reason`].
    pub reason: Reason,
}

impl LocatedError {
    /// Returns the reason and the position.
    #[doc(hidden)]
    #[inline(always)]
    #[must_use]
    pub fn located_reason(self) -> LocatedReason {
        LocatedReason {
            at: self.at,
            reason: self.reason,
        }
    }

    /// Returns the text with a mark under each byte of the part that is wrong, so that people can see this part.
    ///
    /// `text` must be the complete source of the parser that returned this error. This parser must not have returned
    /// `Ok` before. A call that returns `Ok` consumes the source, and a later call does not count positions from the
    /// beginning of the source.
    ///
    /// If the source has 16-bit code units, `text` must be this source, converted to a `str`. In such a source, all code
    /// units before the error are from 1 to 126, and each of them is one byte of `text`. So the position is also a number
    /// of bytes in `text`.
    ///
    /// The `Display` of the result writes two lines, without a newline at the end. [`PointedText`] describes what it
    /// writes for a long text, and for control characters.
    ///
    /// # Examples
    ///
    /// ```rust
    /// use ixdtf::parsers::IxdtfParser;
    ///
    /// let text = "2020-13-01";
    /// let error = IxdtfParser::from_str(text).parse_located().unwrap_err();
    /// assert_eq!(error.in_text(text).to_string(), "2020-13-01\n     ^^");
    /// ```
    #[must_use]
    pub fn in_text<'a>(&self, text: &'a str) -> PointedText<'a> {
        PointedText::new(text, self.part_in(text.as_bytes()))
    }

    /// Returns the text with marks, as [`in_text`](LocatedError::in_text) does, for a source that need not be valid UTF-8.
    ///
    /// `bytes` must be the complete source of the parser, under the same conditions as `text` in `in_text`. The result
    /// shows only the characters before the first byte that is not UTF-8. If the part that is wrong begins at or after this
    /// byte, the first mark is one column after the last of these characters.
    ///
    /// # Examples
    ///
    /// ```rust
    /// use ixdtf::parsers::IxdtfParser;
    ///
    /// let bytes = b"2020-1\xE9-01";
    /// let error = IxdtfParser::from_utf8(bytes).parse_located().unwrap_err();
    /// assert_eq!(error.in_bytes(bytes).to_string(), "2020-1\n      ^");
    /// ```
    #[must_use]
    pub fn in_bytes<'a>(&self, bytes: &'a [u8]) -> PointedText<'a> {
        PointedText::new(valid_front(bytes), self.part_in(bytes))
    }
}

impl FromStop for LocatedError {
    /// Makes the error with its position and its reason.
    #[inline(always)]
    fn of_stop(why: StopAt) -> LocatedError {
        LocatedError {
            error: why.code.error(),
            at: why.at,
            reason: why.reason,
        }
    }
}

/// Returns the characters before the first byte that is not UTF-8.
pub(crate) fn valid_front(bytes: &[u8]) -> &str {
    match from_utf8(bytes) {
        Ok(text) => text,
        Err(error) => from_utf8(&bytes[..error.valid_up_to().min(bytes.len())]).unwrap_or(""),
    }
}

// `Display` writes the message of the error, ` at ` and the position as a decimal number. It ignores width and fill.
impl fmt::Display for LocatedError {
    fn fmt(&self, f: &mut fmt::Formatter<'_>) -> fmt::Result {
        let error = self.error;
        let at = self.at;
        write!(f, "{error} at {at}")
    }
}

impl Error for LocatedError {}

impl From<LocatedError> for ParseError {
    /// Returns the error without its position.
    fn from(located: LocatedError) -> ParseError {
        located.error
    }
}
