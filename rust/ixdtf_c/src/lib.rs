// Made by tools/to_rust.py of crates/ixdtf_c/src/lib.rt. Do not edit.

//! The readers and printers of `ixdtf`, for programs in C and in each language that can call C.
//!
//! A *reader* is a function that parses one kind of text, and a *printer* is a function that writes a value as text. For each
//! value that a printer can print, it writes exactly one text, the *canonical text* of the value. A part of a value can be
//! absent, such as the time of a record. One field says whether the part is present: for a time, this is the field `is_there`.
//! If the part is absent, its other fields do not matter.
//!
//! These pages have the structs that are passed between C and Rust, but not all of the functions. In the repository, the header
//! `c/ixdtf.h` documents each function that a program can call, and `docs/C.md` describes the library.
//!
//! A *profile* is a set of rules that says which texts the readers accept. There are two profiles. One of them, the *strict
//! profile*, has stricter rules for a month and a day, and for a duration. A reader follows the strict profile if its name ends
//! in `_strict`.
//!
//! In C, a `Slice` is a pointer and a length.

#![cfg_attr(not(test), no_std)]

mod computed_fields;
mod duration_conversion;
mod duration_fractions;
mod duration_struct;
mod error_constants;
mod error_numbers;
mod error_reports;
mod explanations;
mod exports;
pub mod narrow;
mod narrow_annotations;
mod narrow_printers;
mod part_conversion;
mod part_structs;
mod printer_trait;
mod reader_errors;
mod reader_numbers;
mod readers;
mod reason_numbers;
mod record_conversion;
mod record_instants;
mod report_bytes;
mod report_marks;
mod report_messages;
mod slices;
mod struct_traits;
mod value_texts;
mod version;
pub mod wide;
mod wide_annotations;
mod wide_printers;

pub use duration_struct::Duration;
pub use error_numbers::Text;
pub use explanations::Explanation;
pub use part_structs::{Date, Offset, Time};

#[cfg(not(test))]
mod abort;
