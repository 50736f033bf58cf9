// Made by tools/to_rust.py of crates/ixdtf_explanations/src/pointed.rt. Do not edit.

//! A text with marks under one of its parts.

use crate::part::WrongPart;
use core::fmt;

/// The greatest number of characters that are written before the marks.
pub const BEFORE_PLACE: usize = 48;

/// The greatest number of characters that are written from the first mark on, and the greatest number of marks.
pub const FROM_PLACE: usize = 24;

/// A text with marks under the part that is wrong. [`LocatedError::in_text`](crate::LocatedError::in_text) and
/// [`LocatedError::in_bytes`](crate::LocatedError::in_bytes) return it.
///
/// `Display` writes two lines. The first line is the text. The second line has spaces, and then a `^` for each byte of the
/// part that is wrong. There is a newline between the two lines, and none at the end. `Display` does not allocate.
///
/// - The first mark is under the character that contains the first byte of the part. If the part begins at or after the end
///   of the shown text, the first mark is one column after the last character. A column is one code point.
/// - There is at least one mark, and there are at most 24.
/// - A control character, U+0000 to U+001F or U+007F to U+009F, is written as `.`.
/// - At most 48 characters before the first mark are written, and at most 24 characters from the first mark on. If
///   characters are left out on one of these two sides, `..` is written instead of them. So a line has at most 76 columns.
///
/// # Examples
///
/// ```rust
/// use ixdtf::parsers::IxdtfParser;
///
/// let text = "2024-03-02T08:48:00-05:00[America/New_York][u-ca=hebrew][key=a_b]";
/// let error = IxdtfParser::from_str(text).parse_located().unwrap_err();
/// assert_eq!(error.at, 62);
/// assert_eq!(error.in_text(text).to_string(), "\
/// ..48:00-05:00[America/New_York][u-ca=hebrew][key=a_b]
///                                                   ^");
/// ```
#[derive(Clone, Copy, Debug)]
pub struct PointedText<'a> {
    text: &'a str,
    part: WrongPart,
}

impl<'a> PointedText<'a> {
    /// Creates a text with marks under this part.
    pub(crate) fn new(text: &'a str, part: WrongPart) -> PointedText<'a> {
        PointedText { text, part }
    }
}

// `Display` ignores width and fill.
impl<'a> fmt::Display for PointedText<'a> {
    fn fmt(&self, f: &mut fmt::Formatter<'_>) -> fmt::Result {
        let column = column_of(self.text, self.part.begin);
        write_line(f, self.text, column)?;
        f.write_str("\n")?;
        write_spaces(f, indent_of(column))?;
        write_marks(f, marks_of(self.part))
    }
}

/// Returns the number of complete characters in the first `at` bytes of the text.
pub fn column_of(text: &str, at: usize) -> usize {
    let mut column = 0;
    let mut left = at;
    for character in text.chars() {
        let length = character.len_utf8();
        if left < length {
            return column;
        }
        left -= length;
        column += 1;
    }
    column
}

/// Returns the number of columns of the first line that are before the position.
pub fn indent_of(column: usize) -> usize {
    if BEFORE_PLACE < column {
        BEFORE_PLACE + 2
    } else {
        column
    }
}

/// Returns the number of marks under a part.
pub fn marks_of(part: WrongPart) -> usize {
    if part.end <= part.begin {
        return 1;
    }
    FROM_PLACE.min(part.end - part.begin)
}

/// Returns `..` if something is cut, and otherwise the empty string.
pub fn cut_mark(is_cut: bool) -> &'static str {
    if is_cut { ".." } else { "" }
}

/// Writes the first line: at most 48 characters before the column, and at most 24 characters from the column on.
fn write_line(f: &mut fmt::Formatter<'_>, text: &str, column: usize) -> fmt::Result {
    let end = column + FROM_PLACE;
    let is_longer = end < text.chars().count();
    f.write_str(cut_mark(BEFORE_PLACE < column))?;
    write_characters(f, text, column.saturating_sub(BEFORE_PLACE), end)?;
    f.write_str(cut_mark(is_longer))
}

/// Writes the characters from index `first` up to, but not including, index `end`.
fn write_characters(
    f: &mut fmt::Formatter<'_>,
    text: &str,
    first: usize,
    end: usize,
) -> fmt::Result {
    for character in text.chars().take(end).skip(first) {
        write_character(f, character)?;
    }
    Ok(())
}

/// Writes the character, or `.` for a control character.
fn write_character(f: &mut fmt::Formatter<'_>, character: char) -> fmt::Result {
    if character.is_control() {
        f.write_str(".")
    } else {
        let mut bytes = [0; 4];
        f.write_str(character.encode_utf8(&mut bytes))
    }
}

/// Writes `count` spaces.
fn write_spaces(f: &mut fmt::Formatter<'_>, count: usize) -> fmt::Result {
    for _ in 0..count {
        f.write_str(" ")?;
    }
    Ok(())
}

/// Writes `count` marks.
fn write_marks(f: &mut fmt::Formatter<'_>, count: usize) -> fmt::Result {
    for _ in 0..count {
        f.write_str("^")?;
    }
    Ok(())
}
