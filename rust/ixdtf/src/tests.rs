// Made by tools/to_rust.py of crates/ixdtf_tests/src/tests.rt. Do not edit.

//! Tests of the readers and of the printer that are more than a text and its answer. The texts with their answers are in the tables of the
//! folder `tests`.

#[allow(unused_imports)]
use crate::runtime::{HostRuntime, TryClone};

mod encodings;
mod handlers;
mod in_turn;
mod instants;
mod large;
mod located;
mod records;

use ixdtf::ParseError::{self, AbruptEnd};
use ixdtf::encoding::Utf8;
use ixdtf::parsers::TimeZoneParser;
use ixdtf::records::{
    DateRecord, Fraction, FullPrecisionOffset, IxdtfParseRecord, MinutePrecisionOffset, Sign,
    TimeRecord, TimeZoneAnnotation, TimeZoneRecord, UtcOffsetRecord, UtcOffsetRecordOrZ,
};
use crate::runtime::Global;
use std::fmt::Display;
use crate::runtime::Abort;
use crate::runtime::Fail;

const AT_DIGIT: ParseError = AbruptEnd { location: "digit" };

const AT_BRACKET: ParseError = AbruptEnd { location: "AmbiguousAnnotation" };

type Record = IxdtfParseRecord<'static, Utf8>;

/// Returns the record with these parts. The zone is given by whether it has a `!`, and by its name.
fn parts(
    date: Option<(i32, u8, u8)>,
    time: Option<TimeRecord>,
    offset: Option<UtcOffsetRecordOrZ>,
    zone: Option<(bool, &'static str)>,
    calendar: Option<&'static str>,
) -> Record {
    let date = match date {
        Some((year, month, day)) => Some(DateRecord { year, month, day }),
        None => None,
    };
    let tz = match zone {
        Some((critical, name)) => Some(TimeZoneAnnotation {
            critical,
            tz: named(name),
        }),
        None => None,
    };
    let calendar = match calendar {
        Some(name) => Some(name.as_bytes()),
        None => None,
    };
    Record {
        date,
        time,
        offset,
        tz,
        calendar,
    }
}

fn dated(year: i32, month: u8, day: u8, time: Option<TimeRecord>) -> Record {
    parts(Some((year, month, day)), time, None, None, None)
}

// Returns a record of 2 March 2024 at 8:48.
fn morning(
    offset: Option<UtcOffsetRecordOrZ>,
    zone: Option<(bool, &'static str)>,
    calendar: Option<&'static str>,
) -> Record {
    parts(
        Some((2024, 3, 2)),
        timed(8, 48, 0, None),
        offset,
        zone,
        calendar,
    )
}

fn named(name: &'static str) -> TimeZoneRecord<'static, Utf8> {
    TimeZoneRecord::Name(name.as_bytes())
}

fn minutes(sign: Sign, hour: u8, minute: u8) -> MinutePrecisionOffset {
    MinutePrecisionOffset { sign, hour, minute }
}

fn short(sign: Sign, hour: u8, minute: u8) -> UtcOffsetRecord {
    UtcOffsetRecord::MinutePrecision(minutes(sign, hour, minute))
}

fn long(
    minute_precision_offset: MinutePrecisionOffset,
    second: u8,
    fraction: Option<Fraction>,
) -> UtcOffsetRecord {
    UtcOffsetRecord::FullPrecisionOffset(FullPrecisionOffset {
        minute_precision_offset,
        second,
        fraction,
    })
}

fn timed(hour: u8, minute: u8, second: u8, fraction: Option<Fraction>) -> Option<TimeRecord> {
    Some(TimeRecord {
        hour,
        minute,
        second,
        fraction,
    })
}

/// Returns the fraction of the second of an offset such as `+00:00:00.25`.
fn fraction_of(text: &str) -> Option<Fraction> {
    match TimeZoneParser::from_str(text).parse_offset() {
        Ok(offset) => offset.fraction(),
        Err(_) => None,
    }
}

/// Asserts a condition about a text.
fn check(rt: &impl Abort, text: &str, is_so: bool) {
    assert!(rt; is_so, "at {text}");
}

/// Asserts that `Display` writes this text for the value, with and without a width and a fill character.
fn check_displayed(
    rt: &impl Abort,
    alloc: Global,
    value: &impl Display,
    text: &str,
) -> Result<(), Fail> {
    let plain = format!(in alloc; "{value}")?;
    check(rt, text, plain.as_str() == text);
    let wide = format!(in alloc; "{value:*>80}")?;
    check(rt, text, wide.as_str() == text);
    Ok(())
}
