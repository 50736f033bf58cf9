// Made by tools/to_rust.py of crates/ixdtf_tests/src/tests/records.rt. Do not edit.

//! Tests of records, and of their fractions and offsets.

#[allow(unused_imports)]
use crate::runtime::{HostRuntime, TryClone};

use super::{check, fraction_of, long, minutes, short};
use ixdtf::encoding::Utf8;
use ixdtf::parsers::TimeZoneParser;
use ixdtf::records::{Sign, TimeZoneRecord, UtcOffsetRecordOrZ};

// Fractions with the nanoseconds of their first nine digits, and whether more digits follow.
const FRACTIONS: &[(&str, u32, bool)] = &[
    ("+00:00:00.25", 250_000_000, false),
    ("+00:00:00.123456789", 123_456_789, false),
    ("+00:00:00.1234567890", 123_456_789, true),
    ("+00:00:00.0000000009", 0, true),
];

// Returns whether the fraction of a text has these nanoseconds. They are exact if no more digits follow.
fn has_nanoseconds(text: &str, nanoseconds: u32, is_cut: bool) -> bool {
    let exact = if is_cut { None } else { Some(nanoseconds) };
    match fraction_of(text) {
        Some(fraction) => {
            fraction.to_nanoseconds() == exact && fraction.to_truncated_nanoseconds() == nanoseconds
        }
        None => false,
    }
}

#[test]
fn fractions_are_cut_at_nanoseconds() {
    let rt = HostRuntime;
    for (text, nanoseconds, is_cut) in FRACTIONS {
        check(&rt, text, has_nanoseconds(text, *nanoseconds, *is_cut));
    }
}

// Returns whether two texts have equal fractions.
fn have_one_fraction(first: &str, second: &str) -> bool {
    fraction_of(first) == fraction_of(second)
}

// The last text has no fraction.
const DIFFERENT_FRACTIONS: &[(&str, &str)] = &[
    ("+00:00:00.1", "+00:00:00.10"),
    ("+00:00:00.25", "+00:00:00.025"),
    ("+00:00:00.25", "+00:00:00"),
];

#[test]
fn fractions_differ_by_their_digits() {
    let rt = HostRuntime;
    for (first, second) in DIFFERENT_FRACTIONS {
        check(&rt, first, !have_one_fraction(first, second));
    }
}

#[test]
fn signs_are_numbers() {
    let rt = HostRuntime;
    let are_numbers = Sign::Negative as i8 == -1 && Sign::Positive as i8 == 1;
    check(&rt, "signs", are_numbers);
}

#[test]
fn z_is_minus_zero() {
    let rt = HostRuntime;
    let west = long(minutes(Sign::Negative, 5, 30), 15, None);
    let offset = UtcOffsetRecordOrZ::Offset(west);
    check(&rt, "an offset", offset.resolve_rfc_9557() == west);
    let unknown = short(Sign::Negative, 0, 0);
    check(
        &rt,
        "Z",
        UtcOffsetRecordOrZ::Z.resolve_rfc_9557() == unknown,
    );
}

// Returns whether the zone of the text has this name, or none if `name` is `None`.
fn has_name(text: &str, name: Option<&str>) -> bool {
    match TimeZoneParser::from_str(text).parse_identifier() {
        Ok(zone) => zone.name() == name,
        Err(_) => false,
    }
}

#[test]
fn names_are_strings() {
    let rt = HostRuntime;
    check(&rt, "UTC", has_name("UTC", Some("UTC")));
    check(&rt, "+05:30", has_name("+05:30", None));
    let odd: TimeZoneRecord<'_, Utf8> = TimeZoneRecord::Name(b"Europe/Malm\xf6");
    check(&rt, "a name that is not UTF-8", odd.name().is_none());
}
