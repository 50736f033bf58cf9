// Made by tools/to_rust.py of crates/ixdtf/src/lib.rt. Do not edit.

#![doc = include_str!("../README.md")]
#![cfg_attr(not(test), no_std)]
#![forbid(unsafe_code)]
#![allow(clippy::let_and_return)]

#[cfg(test)]
extern crate self as ixdtf;

mod civil;
mod classes;
mod codes;
mod cursor;
mod days;
mod display;
pub mod encoding;
mod error;
mod error_code;
mod hexadecimal;
mod hint;
mod instant;
mod instants;
mod located;
mod message;
mod packed;
pub mod parsers;
mod part;
mod pointed;
mod reason;
pub mod records;
mod stop;
mod wording;

// These items are `pub` because other crates of this repository use them. They are not part of the interface for callers.
#[doc(hidden)]
pub use crate::hexadecimal::{byte_digits, character_digits};
// This item is `pub` because other crates of this repository use it. It is not part of the interface for callers.
#[doc(hidden)]
pub use crate::located::LocatedReason;
// This item is `pub` because other crates of this repository use it. It is not part of the interface for callers.
#[doc(hidden)]
pub use crate::message::look_alike;
// These items are `pub` because other crates of this repository use them. They are not part of the interface for callers.
#[doc(hidden)]
pub use crate::part::{Numbered, part_of};
// These items are `pub` because other crates of this repository use them. They are not part of the interface for callers.
#[doc(hidden)]
pub use crate::pointed::{
    BEFORE_PLACE, FROM_PLACE, column_of, cut_mark, indent_of, marks_of,
};
pub use error::ParseError;
pub use instant::Instant;
pub use located::LocatedError;
pub use message::Message;
pub use message::Shown;
pub use part::WrongPart;
pub use pointed::PointedText;
pub use reason::Reason;

/// The result of a reader: the value that it found, or the error.
pub type ParserResult<T> = Result<T, ParseError>;

mod from_text;

#[cfg(test)]
#[macro_use]
mod runtime;
#[cfg(test)]
mod callers;
#[cfg(test)]
mod tests;
