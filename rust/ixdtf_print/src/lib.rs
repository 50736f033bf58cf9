// Made by tools/to_rust.py of crates/ixdtf_print/src/lib.rt. Do not edit.

#![doc = include_str!("../README.md")]
#![no_std]
#![forbid(unsafe_code)]

mod canonical;
mod check;
mod digits;
mod durations;
mod error;
mod fields;
mod length;
mod message;
mod month_days;
mod numbers;
mod offsets;
mod printed;
mod put;
mod text;
mod times;
mod wide;
mod wide_names;
mod written;
mod year_months;
mod zones;

pub use canonical::{Canonical, print, print_utf16, printed_length, printed_length_utf16};
// Only other crates of this repository use this item. It is not part of the public interface.
#[doc(hidden)]
pub use canonical::{length_of, print_with_room};
// Only other crates of this repository use this item. It is not part of the public interface.
#[doc(hidden)]
pub use digits::put_digits;
pub use durations::{CanonicalDuration, duration_length, print_duration, print_duration_utf16};
pub use error::PrintError;
// Only other crates of this repository use this item. It is not part of the public interface.
#[doc(hidden)]
pub use message::error_parts;
pub use month_days::{
    CanonicalMonthDay, month_day_length, month_day_length_utf16, print_month_day,
    print_month_day_utf16,
};
pub use offsets::{CanonicalOffset, offset_length, print_offset, print_offset_utf16};
// Only other crates of this repository use this item. It is not part of the public interface.
#[doc(hidden)]
pub use printed::PrintedText;
pub use times::{CanonicalTime, print_time, print_time_utf16, time_length, time_length_utf16};
pub use year_months::{
    CanonicalYearMonth, print_year_month, print_year_month_utf16, year_month_length,
    year_month_length_utf16,
};
pub use zones::{CanonicalZone, print_zone, print_zone_utf16, zone_length, zone_length_utf16};
