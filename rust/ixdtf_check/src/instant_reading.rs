// Made by tools/to_rust.py of crates/ixdtf_checks/src/instant_reading.rt. Do not edit.

//! Reads the instant that a text names.

use crate::kind::InstantKind;
use ixdtf::parsers::IxdtfParser;
use ixdtf::{Instant, LocatedError};

/// Reads the text as a text of the kind, and returns the instant that the text names. The instant is `None` if the text has no
/// date, no time, or neither an offset nor `Z`. Returns the error with its position, if the text is refused.
pub fn read_instant(kind: InstantKind, text: &[u8]) -> Result<Option<Instant>, LocatedError> {
    match kind {
        InstantKind::DateTime => match IxdtfParser::from_utf8(text).parse_located() {
            Ok(record) => Ok(record.instant()),
            Err(error) => Err(error),
        },
        InstantKind::Rfc3339 => match IxdtfParser::from_utf8(text).parse_rfc3339_located() {
            Ok(record) => Ok(record.instant()),
            Err(error) => Err(error),
        },
        InstantKind::Rfc9557 => match IxdtfParser::from_utf8(text).parse_rfc9557_located() {
            Ok(record) => Ok(record.instant()),
            Err(error) => Err(error),
        },
    }
}
