// Made by tools/to_rust.py of crates/ixdtf_tests/src/tests/instants.rt. Do not edit.

//! Tests of instants: their order, and the texts that `Display` writes for them. The seconds are those of Python's `datetime`. For years
//! that `datetime` does not support, they were counted year by year. The instants of texts are rows of `tests/accepted.tsv`.

#[allow(unused_imports)]
use crate::runtime::{HostRuntime, TryClone};

use super::{check, check_displayed};
use ixdtf::Instant;
use ixdtf::parsers::IxdtfParser;
use crate::runtime::Fail;

// Returns the instant of a text, if it has one.
fn instant_of(text: &str) -> Option<Instant> {
    match IxdtfParser::from_str(text).parse() {
        Ok(record) => record.instant(),
        Err(_) => None,
    }
}

#[test]
fn the_earlier_instant_is_the_smaller_one() {
    let rt = HostRuntime;
    let first = instant_of("2024-03-02T08:48:00.25Z");
    let second = instant_of("2024-03-02T08:48:00.3Z");
    let third = instant_of("2024-03-02T08:48:01Z");
    let (Some(first), Some(second), Some(third)) = (first, second, third) else {
        return check(&rt, "instants", false);
    };
    check(&rt, "nanoseconds", first < second);
    check(&rt, "seconds", second < third);
}

// Seconds and nanoseconds, and the texts that `Display` writes for these instants.
const TEXTS: &[(i64, u32, &str)] = &[
    (0, 0, "1970-01-01T00:00:00Z"),
    (-1, 999_999_999, "1969-12-31T23:59:59.999999999Z"),
    // These years are at the limits of the range from 0 to 9999, or outside it.
    (-62_167_219_201, 0, "-000001-12-31T23:59:59Z"),
    (253_402_300_800, 0, "+010000-01-01T00:00:00Z"),
    (31_494_784_780_799, 0, "+999999-12-31T23:59:59Z"),
    // No record has these instants.
    (31_494_784_780_800, 0, "+000001000000-01-01T00:00:00Z"),
    (i64::MAX, 0, "+292277026596-12-04T15:30:07Z"),
    (0, 1_500_000_000, "1970-01-01T00:00:01.5Z"),
];

#[test]
fn displays_the_date_and_the_time_in_utc() -> Result<(), Fail> {
    let rt = HostRuntime;
    for (seconds, nanoseconds, text) in TEXTS {
        let instant = Instant {
            seconds: *seconds,
            nanoseconds: *nanoseconds,
        };
        check_displayed(&rt, rt.alloc(), &instant, text)?;
    }
    Ok(())
}
