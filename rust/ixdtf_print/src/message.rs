// Made by tools/to_rust.py of crates/ixdtf_print/src/message.rt. Do not edit.

//! The message of an error of a reader.

use ixdtf::ParseError;

/// Returns the text that `Display` writes for an error, in two parts. For an `AbruptEnd`, the second part is its
/// location. For any other error, the second part is empty.
///
/// With these two parts, a program can write the error into a line without `Display`.
// Only other crates of this repository use this item. It is not part of the public interface.
#[doc(hidden)]
#[inline(always)]
pub fn error_parts(error: ParseError) -> (&'static str, &'static str) {
    match error {
        ParseError::AbruptEnd { location } => ("Parsing ended abruptly while parsing ", location),
        _ => (error.to_static_string(), ""),
    }
}
